// Measures the entry points beside LEMON, CLP and GLPK in one process, in interleaved rounds, and compares every answer.
//   bench time      a line a figure:  time FAMILY SIZE CALL MEDIAN   (microseconds a call, tabs between fields)
//   bench threads   a line a figure:  threads FAMILY SIZE CALL THREADS RATE   (calls a second by the wall clock, of all threads together)
//   bench count     under callgrind: one dump of instruction counts for each family, call and size that is counted
// The exit status is 1 if any answer differs.
#include <time.h>

#include <chrono>
#include <cstdio>
#include <cstdlib>
#include <future>
#include <string>

#include "calls.hpp"
#include "desk_books.hpp"
#if __has_include(<valgrind/callgrind.h>)
#include <valgrind/callgrind.h>
#else
#define CALLGRIND_TOGGLE_COLLECT
#define CALLGRIND_DUMP_STATS_AT(name) ((void)(name))
#endif

static long compared, differing;

// Calls that are measured beside each other, on the same books.
struct Section {
    const std::vector<Call> &calls;  // no call has more books than the first
    std::vector<Family> families;
    std::vector<int> timed, counted;    // the sizes
    bool ordered = true, idle = false;  // whether the books have an order, and are run with an idle call
    size_t amounts = 1;                 // sets of them for a book; with several LEMON's graph of the book is kept
};

static std::vector<Family> joined(std::vector<Family> families, const std::vector<Family> &more) {
    families.insert(families.end(), more.begin(), more.end());
    return families;
}

static const std::vector<int> sizes = {8, 16, 24, 32}, largest = {32}, up_to_eight = {1, 2, 4, 8};

static const Section sections[] = {
    {calls, six, sizes, largest},
    {kept_calls, joined(six, desk), sizes, {}, true, false, 8},
    {desk_calls, desk, sizes, largest},
    {no_order_calls, without_order, sizes, largest, false},
    {idle_calls, {six.begin(), six.begin() + complete}, sizes, largest, true, true},
    {panel_calls, six, up_to_eight, up_to_eight},
};

// As many problems as asked for, those with the same book in a row. Where the books are to have no order, one that has is left out.
static std::vector<Problem> make(const Section &section, const Family &family, int size, size_t count) {
    Maker maker(family, size);
    std::vector<Problem> problems;
    while (problems.size() < count) {
        Problem p = maker.make(family, size, section.idle);
        const placer_reply reply = find(p);
        if (!section.ordered && !reply.number) continue;
        if (reply.number != (section.ordered ? 0 : PLACER_NO_ORDER))
            std::fprintf(stderr, "%s %d: refused %u\n", family.name, size, reply.number), std::exit(1);
        p.order.assign(order, order + reply.values[0]);
        if (section.amounts > 1) p.kept = std::make_shared<KeptGraph>(p);
        for (size_t set = 0; set < section.amounts; set++) {
            if (set > 0) maker.draw_amounts(p);
            problems.push_back(p);
        }
    }
    return problems;
}

using Answers = std::vector<Answer>;

// One pass of a call over its books.
static void pass(const Call &call, const std::vector<Problem> &problems, const Answers &expected, Answers &answers) {
    for (size_t b = 0; b < call.books && b < problems.size(); b++) answers[b] = call.run(problems[b], expected[b]);
}

// LEMON's answers, which all others are held against.
static Answers solved(const std::vector<Problem> &problems) {
    Answers expected;
    for (const Problem &p : problems) {
        expected.push_back(by_lemon(p));
        differing += expected.back().units != p.total();
    }
    return expected;
}

static void compare(size_t books, const Answers &answers, const Answers &expected) {
    for (size_t b = 0; b < books; b++, compared++) differing += !(answers[b] == expected[b]);
}

// Microseconds of this process on a processor, so that what others run beside it counts little.
static double now() {
    timespec time;
    clock_gettime(CLOCK_PROCESS_CPUTIME_ID, &time);
    return 1e6 * double(time.tv_sec) + 1e-3 * double(time.tv_nsec);
}

static void time_family(const Section &section, const Family &family, int size) {
    const std::vector<Call> &calls = section.calls;
    const std::vector<Problem> problems = make(section, family, size, calls[0].books);
    const Answers expected = solved(problems);
    Answers answers(problems.size());
    std::vector<std::vector<double>> times(calls.size());
    for (size_t round = 0; round < 21; round++)
        for (size_t c = 0; c < calls.size(); c++) {
            if (round >= calls[c].rounds) continue;
            const double start = now();
            pass(calls[c], problems, expected, answers);
            times[c].push_back((now() - start) / double(calls[c].books));
            compare(calls[c].books, answers, expected);
        }
    for (size_t c = 0; c < calls.size(); c++) {
        std::sort(times[c].begin(), times[c].end());
        std::printf("time\t%s\t%d\t%s\t%.4f\n", family.name, size, calls[c].name, times[c][times[c].size() / 2]);
    }
    std::fflush(stdout);
}

static void count_family(const Section &section, const Family &family, int size) {
    const std::vector<Problem> problems = make(section, family, size, 8);
    const Answers expected = solved(problems);
    Answers answers(problems.size());
    for (const Call &call : section.calls) {
        const std::string label = std::string(family.name) + "\t" + std::to_string(size) + "\t" + call.name;
        CALLGRIND_TOGGLE_COLLECT;
        pass(call, problems, expected, answers);
        CALLGRIND_TOGGLE_COLLECT;
        CALLGRIND_DUMP_STATS_AT(label.c_str());
    }
}

// Calls a second of one thread, over 15 milliseconds or a little more.
static double rate(const Call &call, const std::vector<Problem> &problems, const Answers &expected, Answers &answers) {
    const auto start = std::chrono::steady_clock::now();
    double count = 0, seconds = 0;
    do {
        pass(call, problems, expected, answers);
        count += double(problems.size());
        seconds = std::chrono::duration<double>(std::chrono::steady_clock::now() - start).count();
    } while (seconds < 0.015);
    return count / seconds;
}

// The rates of so many threads at once, added up.
static double rate_of(size_t threads, const Call &call, const std::vector<Problem> &problems, const Answers &expected) {
    std::vector<Answers> answers(threads, Answers(problems.size()));
    std::vector<std::future<double>> rates;
    for (Answers &own : answers)
        rates.push_back(std::async(std::launch::async, rate, std::cref(call), std::cref(problems), std::cref(expected), std::ref(own)));
    double sum = 0;
    for (auto &rate : rates) sum += rate.get();
    for (const Answers &own : answers) compare(own.size(), own, expected);
    return sum;
}

static void time_threads() {
    for (const Family &family : {six[0], six[1]})
        for (int size : {8, 32}) {
            const std::vector<Problem> problems = make(sections[0], family, size, 64);
            const Answers expected = solved(problems);
            for (const Call &call : thread_calls)
                for (size_t threads : {1, 2}) {
                    const double sum = rate_of(threads, call, problems, expected);
                    std::printf("threads\t%s\t%d\t%s\t%zu\t%.0f\n", family.name, size, call.name, threads, sum);
                }
        }
}

int main(int count, char **words) {
    const std::string what = count > 1 ? words[1] : "time";
    const bool counting = what == "count";
    if (what == "threads")
        time_threads();
    else
        for (const Section &section : sections)
            for (const Family &family : section.families)
                for (int size : counting ? section.counted : section.timed) (counting ? count_family : time_family)(section, family, size);
    if (!counting) std::printf("answers\t%ld\t%ld\n", compared, differing);
    return differing != 0;
}
