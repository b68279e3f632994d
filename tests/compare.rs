//! Compares the C library with an independent reference and books of version 2 with those of version 1, and tries demand 3, what the
//! verdicts promise and request 2 by brute force: `compare PLACE [SEED]`, PLACE being the printing program. All that is random follows
//! from the seed, so every run with a seed is the same. Parts run at the same time in several threads, as the library allows. The last
//! line is `tests: N cases, D differences`; the exit status is 0 only if D is 0, each number and each verdict came, and each wrong
//! reference was noticed. A digest of replies and writes is another where a landing changes one of them; with another seed the digests,
//! and the number of cases, are others too.
mod amounts;
mod checking;
mod costs;
mod demand3;
mod direct;
mod eight_by_eight;
mod families;
mod files;
mod guarded;
mod idle;
mod known;
mod known_reserves;
mod library;
mod new_desks;
mod noticing;
mod panel;
mod placing;
mod program;
mod rebates;
mod reference;
mod relabelled;
mod request2;
mod reserves;
mod samples;
mod sections;
#[path = "../bindings/rust/src/sys.rs"]
mod sys;
mod versions;
mod wrong;

use library::{Books, Comparison, Tallies, Tally, DIGESTS, IDLE, OF_PANEL, OF_RESERVES, PANEL};
use noticing::missed;
use samples::DEFAULT_SEED;
use std::collections::hash_map::DefaultHasher;
use std::hash::Hasher;
use std::path::Path;
use std::sync::atomic::{AtomicUsize, Ordering};
use std::sync::Mutex;
use std::time::Instant;
use wrong::Wrong;

/// In the place of a number: a run's cost is below zero.
const BELOW_ZERO: usize = 22;

/// The cells of the small books of version 1.
const SMALL: [Option<i64>; 4] = [None, Some(0), Some(1), Some(2)];

type Work<'a> = Box<dyn Fn(&mut Comparison) + Sync + 'a>;

/// What a part came to.
struct Outcome {
    tallies: Tallies,
    digests: [u64; DIGESTS],
    seconds: f64,
}

fn outcome(wrong: Wrong, work: &Work, seed: u64) -> Outcome {
    let (start, mut c) = (Instant::now(), Comparison::new(wrong, seed));
    work(&mut c);
    Outcome { digests: c.digests(), tallies: c.tallies, seconds: start.elapsed().as_secs_f64() }
}

fn sum<'a>(tallies: impl Iterator<Item = &'a Tally>) -> Tally {
    tallies.fold(Tally::default(), |mut sum, tally| {
        sum.cases += tally.cases;
        sum.differences += tally.differences;
        sum.numbers.iter_mut().zip(tally.numbers).for_each(|(sum, times)| *sum += times);
        sum.verdicts.iter_mut().zip(tally.verdicts).for_each(|(sum, times)| *sum += times);
        sum.below_zero += tally.below_zero;
        sum
    })
}

/// Runs all parts, two or more at a time; the outcomes in the sequence of the parts.
fn run_all(parts: &[(Wrong, Work)], seed: u64) -> Vec<Outcome> {
    let workers = std::thread::available_parallelism().map_or(2, |n| n.get().clamp(2, 8));
    let (next, outcomes) = (AtomicUsize::new(0), Mutex::new(Vec::new()));
    std::thread::scope(|scope| {
        for _ in 0..workers {
            scope.spawn(|| loop {
                let k = next.fetch_add(1, Ordering::Relaxed);
                match parts.get(k) {
                    Some((wrong, work)) => {
                        let done = outcome(*wrong, work, seed);
                        outcomes.lock().unwrap().push((k, done));
                    }
                    None => break,
                }
            });
        }
    });
    let mut outcomes = outcomes.into_inner().unwrap();
    outcomes.sort_by_key(|&(k, _)| k);
    outcomes.into_iter().map(|(_, done)| done).collect()
}

/// One digest of several.
fn digest(digests: impl Iterator<Item = u64>) -> u64 {
    let mut all = DefaultHasher::new();
    digests.for_each(|digest| all.write_u64(digest));
    all.finish()
}

/// Prints digests of what the library replied and wrote, the ticket panel's calls and amounts of version 2 apart: with books that have lots
/// and calls, in the parts from before request 5; with other books there, and in the parts of request 5; the panel's calls, with all calls
/// in its own parts; and the calls with amounts of version 2, with all calls in the parts of request 7.
fn print_digests([before, request_5, request_6, request_7]: [&[Outcome]; 4]) {
    let with = |books: Books| before.iter().map(move |done| done.digests[books as usize]);
    println!("replies and writes with books of version 2: {:016x}", digest(with(Books::Version2)));
    println!("replies and writes with all other books: {:016x}", digest(with(Books::Other)));
    let new_desks = with(Books::NewDesk).chain(request_5.iter().flat_map(|done| done.digests.into_iter().take(OF_PANEL)));
    println!("replies and writes with books without lots or calls, and in the parts of request 5: {:016x}", digest(new_desks));
    let panel = before.iter().chain(request_5).map(|done| done.digests[OF_PANEL]);
    let panel = panel.chain(request_6.iter().flat_map(|done| done.digests.into_iter().take(OF_RESERVES)));
    println!("replies and writes of the ticket panel, and in the parts of request 6: {:016x}", digest(panel));
    let reserves = before.iter().chain(request_5).chain(request_6).map(|done| done.digests[OF_RESERVES]);
    let reserves = reserves.chain(request_7.iter().flat_map(|done| done.digests));
    println!("replies and writes with amounts of version 2, and in the parts of request 7: {:016x}", digest(reserves));
}

/// The parts with books of version 1, the two longest first.
fn parts_of_version_1<'a>() -> Vec<(&'a str, Work<'a>)> {
    vec![
        ("families to 31 by 31", Box::new(|c| families::families(c, 1, 2, &[14, 24, 31]))),
        ("families to 32 by 32", Box::new(|c| families::families(c, 1, 2, &[1, 2, 17, 32]))),
        ("damaged files", Box::new(|c| sections::damage(c, &samples::stored_books()))),
        ("books up to 2 by 2", Box::new(|c| sections::small_books(c, 1, &SMALL))),
        ("books of 3 by 3", Box::new(|c| sections::three_by_three(c, 1, &SMALL[..3]))),
        ("random books to 8 by 8", Box::new(|c| sections::random_books(c, 1, 4_000, (1, 8), 6))),
        ("random books to 16 by 16", Box::new(|c| sections::random_books(c, 1, 2_000, (1, 16), 6))),
        ("random books to 32 by 32", Box::new(|c| sections::random_books(c, 1, 600, (1, 32), 6))),
        ("largest books", Box::new(|c| sections::largest_books(c, 1))),
        ("families to 12 by 12", Box::new(|c| families::families(c, 1, 6, &[1, 2, 3, 4, 5, 6, 7, 8, 9, 10, 11, 12]))),
        ("limits", Box::new(sections::limits)),
        ("known runs", Box::new(known::known)),
        ("known runs with an idle call", Box::new(known::known_idle)),
        ("long orders", Box::new(sections::long_orders)),
        ("demand 3 and verdicts by brute force", Box::new(demand3::demand3)),
        ("request 2 by brute force", Box::new(request2::request2)),
    ]
}

/// The parts of request 4.
fn parts_of_version_2<'a>() -> Vec<(&'a str, Work<'a>)> {
    vec![
        ("version 2, families to 31 by 31", Box::new(|c| families::families(c, 2, 1, &[13, 31]))),
        ("version 2, families to 12 by 12", Box::new(|c| families::families(c, 2, 3, &[1, 2, 3, 4, 6, 8, 12]))),
        ("version 2, damaged files", Box::new(|c| sections::damage(c, &rebates::stored_rebates()))),
        ("version 2, books up to 2 by 2", Box::new(|c| sections::small_books(c, 2, &[None, Some(-1), Some(0), Some(1)]))),
        ("version 2, books of 3 by 3", Box::new(|c| sections::three_by_three(c, 2, &[None, Some(-1), Some(0)]))),
        ("version 2, random books to 8 by 8", Box::new(|c| sections::random_books(c, 2, 4_000, (1, 8), 6))),
        ("version 2, random books to 16 by 16", Box::new(|c| sections::random_books(c, 2, 1_000, (1, 16), 6))),
        ("version 2, random books to 32 by 32", Box::new(|c| sections::random_books(c, 2, 400, (1, 32), 6))),
        ("version 2, largest books", Box::new(|c| sections::largest_books(c, 2))),
        ("version 2, largest costs", Box::new(versions::largest_costs)),
        ("costs about the limits of either version", Box::new(versions::cost_limits)),
        ("versions of each file", Box::new(versions::versions)),
        ("version 2, known runs", Box::new(known::rebates)),
        ("version 1 relabelled as version 2", Box::new(relabelled::relabelled)),
        ("version 2, demand 3 and verdicts by brute force", Box::new(demand3::rebates)),
        ("version 2, request 2 by brute force", Box::new(request2::rebates)),
    ]
}

/// The parts of request 5, of both versions.
fn parts_of_request_5<'a>() -> Vec<(&'a str, Work<'a>)> {
    vec![
        ("random books from 0 by 0 to 3 by 3", Box::new(|c| sections::random_books(c, 1, 4_000, (0, 3), 6))),
        ("version 2, random books from 0 by 0 to 3 by 3", Box::new(|c| sections::random_books(c, 2, 4_000, (0, 3), 6))),
        ("no lots or calls, small amounts", Box::new(new_desks::few)),
        ("no lots or calls, every book", Box::new(new_desks::every_book)),
        ("no lots or calls, orders", Box::new(new_desks::orders)),
        ("no lots or calls, damaged files", Box::new(new_desks::damaged)),
        ("every two counts", Box::new(|c| new_desks::counts(c, &(0..=255).collect::<Vec<_>>()))),
        ("words without calls", Box::new(|c| new_desks::words(c, 32))),
        ("amounts of each two counts", Box::new(new_desks::amounts)),
        ("no lots or calls, versions of each file", Box::new(new_desks::every_version)),
        ("no lots or calls, demand 3 and request 2 by brute force", Box::new(new_desks::brute_force)),
        ("no lots or calls, known replies", Box::new(new_desks::known)),
    ]
}

/// The parts of request 6, of both versions.
fn parts_of_request_6<'a>() -> Vec<(&'a str, Work<'a>)> {
    vec![
        ("ticket panel, every two counts", Box::new(|c| eight_by_eight::counts(c, &(0..=255).collect::<Vec<_>>()))),
        ("ticket panel, above eight by eight", Box::new(|c| eight_by_eight::above(c, &(0..=32).collect::<Vec<_>>()))),
        ("ticket panel, books of each kind", Box::new(|c| eight_by_eight::kinds(c, 6))),
        ("ticket panel, families", Box::new(|c| eight_by_eight::families(c, 1))),
        ("ticket panel, families of version 2", Box::new(|c| eight_by_eight::families(c, 2))),
        ("ticket panel, limits", Box::new(eight_by_eight::limits)),
        ("ticket panel, damaged files", Box::new(eight_by_eight::damage)),
        ("ticket panel, known replies", Box::new(eight_by_eight::known)),
    ]
}

/// The parts of request 7, with books of both versions.
fn parts_of_request_7<'a>() -> Vec<(&'a str, Work<'a>)> {
    let sizes = [(0, 0), (0, 1), (1, 0), (1, 1), (1, 2), (2, 1), (0, 3), (3, 0), (2, 3), (3, 2), (8, 8), (32, 31), (32, 32)];
    vec![
        ("reserves, random books to 8 by 8", Box::new(|c| reserves::random_books(c, 3_000, 8))),
        ("reserves, random books to 32 by 32", Box::new(|c| reserves::random_books(c, 200, 32))),
        ("reserves, small amounts", Box::new(reserves::few)),
        ("reserves, versions and lengths", Box::new(move |c| reserves::lengths(c, &sizes))),
        ("reserves, damaged amounts", Box::new(reserves::damage)),
        ("reserves, largest amounts", Box::new(reserves::largest)),
        ("reserves, limits", Box::new(reserves::limits)),
        ("reserves, several causes", Box::new(reserves::causes)),
        ("reserves, demand 3 and request 2 by brute force", Box::new(reserves::brute_force)),
        ("reserves, known replies", Box::new(known_reserves::known)),
    ]
}

/// The parts from before request 5, those of it, of request 6 and of request 7. The printing program's are the last ones, where it is
/// built.
fn all_parts(path: &Path) -> [Vec<(&str, Work<'_>)>; 4] {
    let mut before = parts_of_version_1();
    before.extend(parts_of_version_2());
    let (mut request_5, mut request_7) = (parts_of_request_5(), parts_of_request_7());
    if path.is_file() {
        before.push(("printing program", Box::new(move |c| program::program(c, path))));
        before.push(("version 2, printing program", Box::new(move |c| program::rebates(c, path))));
        request_5.push(("no lots or calls, printing program", Box::new(move |c| program::new_desks(c, path))));
        request_7.push(("reserves, printing program", Box::new(move |c| program::reserves(c, path))));
    } else {
        println!("printing program: SKIPPED, it is not built");
    }
    [before, request_5, parts_of_request_6(), request_7]
}

/// Prints how often each number and each verdict came: in all; with books of version 2; with books without lots or calls, which have no
/// pairs and no costs; in the run with an idle call and in the ticket panel's, which meet no order's numbers. The count of those that never
/// did.
fn unseen(outcomes: &[Outcome]) -> u64 {
    let each = || outcomes.iter().flat_map(|done| &done.tallies);
    let with = |books: Books| sum(each().filter(|(key, _)| key.1 == books).map(|(_, tally)| tally));
    let of = |name: &str| sum(each().filter(|(key, _)| key.0 == name).map(|(_, tally)| tally));
    let tallies: [(&str, Tally, &[usize]); 5] = [
        ("all", sum(each().map(|(_, tally)| tally)), &[]),
        ("books of version 2", with(Books::Version2), &[]),
        ("books without lots or calls", with(Books::NewDesk), &[7, 10, 11, 12, 13, 14, BELOW_ZERO]),
        (IDLE.name, of(IDLE.name), &[9, 10, 11, 12, 14, 20]),
        (PANEL.name, of(PANEL.name), &[9, 10, 11, 12, 14, 18, 19]),
    ];
    let print = |(name, tally, never): (&str, Tally, &[usize])| {
        let ([_, full, short, covered], numbers) = (tally.verdicts, tally.numbers);
        print!("{name}: {} cases, accepted {}; refused by 1 to 21: {:?}; ", tally.cases, numbers[0], &numbers[1..]);
        println!("runs full {full}, short {short}, covered {covered}, costs below zero {}", tally.below_zero);
        let expected = numbers.into_iter().chain([tally.below_zero]).enumerate().filter(|(number, _)| !never.contains(number));
        expected.map(|(_, times)| times).chain(tally.verdicts).filter(|&times| times == 0).count() as u64
    };
    tallies.into_iter().map(print).sum()
}

fn main() {
    let arguments: Vec<String> = std::env::args().skip(1).collect();
    let seed = arguments.get(1).map_or(Ok(DEFAULT_SEED), |seed| seed.parse());
    let (path, seed) = match (arguments.first(), seed) {
        (Some(path), Ok(seed)) if arguments.len() < 3 => (path, seed),
        _ => {
            eprintln!("usage: compare PLACE [SEED]");
            std::process::exit(2);
        }
    };
    if seed != DEFAULT_SEED {
        println!("seed {seed}: the cases and digests on record are those of seed {DEFAULT_SEED}, and not to be compared with these");
    }
    let parts = all_parts(Path::new(path));
    let counts = [0, 1, 2, 3].map(|group| parts[group].len());
    let (names, works): (Vec<&str>, Vec<Work>) = parts.into_iter().flatten().unzip();
    let outcomes = run_all(&works.into_iter().map(|work| (Wrong::Nothing, work)).collect::<Vec<_>>(), seed);
    let (mut cases, mut differences) = (0, 0);
    for (name, done) in names.iter().zip(&outcomes) {
        let tally = sum(done.tallies.values());
        println!("{name}: {} cases, {} differences, {:.1} s", tally.cases, tally.differences, done.seconds);
        cases += tally.cases;
        differences += tally.differences;
    }
    differences += unseen(&outcomes);
    let mut rest = &outcomes[..];
    print_digests(counts.map(|count| {
        let (group, later) = rest.split_at(count);
        rest = later;
        group
    }));

    let (missed, wrong) = missed(Path::new(path), seed);
    println!("wrong references: {} of {wrong} noticed", wrong - missed.len());
    missed.iter().for_each(|wrong| println!("NOT NOTICED: {wrong:?}"));

    differences += missed.len() as u64;
    println!("tests: {cases} cases, {differences} differences");
    std::process::exit((differences > 0) as i32);
}
