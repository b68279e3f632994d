//! The printing program, run in a folder of its own and held to the reference's text.
use crate::costs::{rows, Costs};
use crate::files::{amounts_file, book_file, relabelled, reserved_file};
use crate::known::{known_rebates, known_runs, one_unit, Known};
use crate::known_reserves::f1_amounts;
use crate::library::Comparison;
use crate::new_desks::{desk, known_desks, sizes};
use crate::rebates::{in_version, stored_rebates};
use crate::reserves::any_reserved;
use crate::samples::{amounts, costs, stored_books, Random, KINDS};
use std::fs;
use std::io::Write;
use std::path::{Path, PathBuf};
use std::process::Command;
use std::sync::atomic::{AtomicUsize, Ordering};

/// How many folders were made.
static FOLDERS: AtomicUsize = AtomicUsize::new(0);

/// What is printed on F1.
const F1: &str = "FULL 9 24\n0 1 5\n1 0 3\n1 1 1\n";

/// The program, and the folder that it is run in.
struct Place<'a> {
    c: &'a mut Comparison,
    program: PathBuf,
    folder: PathBuf,
}

fn long(file: &[u8], more: usize) -> Vec<u8> {
    [file, &vec![0; more]].concat()
}

fn output(program: &Path, folder: &Path) -> Vec<u8> {
    Command::new(program).current_dir(folder).output().expect("the program runs").stdout
}

impl Place<'_> {
    fn printed(&self, book: Option<&[u8]>, amounts: Option<&[u8]>) -> Vec<u8> {
        for (name, bytes) in [("book.clb", book), ("amounts.cla", amounts)] {
            let path = self.folder.join(name);
            match bytes {
                Some(bytes) => fs::write(path, bytes).expect("a file is written"),
                None => drop(fs::remove_file(path)),
            }
        }
        output(&self.program, &self.folder)
    }

    fn count(&mut self, same: bool, got: &[u8], expected: &str) {
        self.c.count_printed(same, || format!("printed {:?}, expected {expected:?}", String::from_utf8_lossy(got)));
    }

    /// Held to the reference's text.
    fn check(&mut self, book: Option<&[u8]>, amounts: Option<&[u8]>) {
        let expected = self.c.wrong.printed(book.unwrap_or(&[]), amounts.unwrap_or(&[]));
        let got = self.printed(book, amounts);
        self.count(got == expected.as_bytes(), &got, &expected);
    }

    /// Held to a text that is known.
    fn known(&mut self, book: &[u8], amounts: &[u8], expected: &str) {
        let got = self.printed(Some(book), Some(amounts));
        self.count(got == expected.as_bytes(), &got, expected);
    }

    /// The known runs, each with its first line.
    fn known_runs(&mut self, version: u16, runs: Vec<Known>) {
        for (costs, amounts, (verdict, units, cost)) in runs {
            let amounts = amounts_file(costs.len(), costs.calls, &amounts);
            let got = self.printed(Some(&book_file(version, &costs)), Some(&amounts));
            let line = format!("{} {units} {cost}\n", verdict.word());
            self.count(got.starts_with(line.as_bytes()), &got, &line);
        }
    }

    /// A folder in place of the book counts as absent; a pipe that delivers the book byte by byte is read to its end.
    fn odd_files(&mut self) {
        let (book, path) = (&stored_books()[0], self.folder.join("book.clb"));
        fs::write(self.folder.join("amounts.cla"), amounts_file(2, 2, &[5, 4, 3, 6])).expect("a file is written");
        fs::remove_file(&path).expect("the book is removed");
        fs::create_dir(&path).expect("a folder is made");
        let got = output(&self.program, &self.folder);
        self.count(got == b"REFUSED 1\n", &got, "a folder in place of the book");
        fs::remove_dir(&path).expect("the folder is removed");
        assert!(Command::new("mkfifo").arg(&path).status().expect("mkfifo runs").success());
        let got = std::thread::scope(|scope| {
            scope.spawn(|| {
                let mut pipe = fs::OpenOptions::new().write(true).open(&path).expect("the pipe opens");
                book.iter().for_each(|&byte| pipe.write_all(&[byte]).expect("a byte is written"));
            });
            output(&self.program, &self.folder)
        });
        self.count(got == F1.as_bytes(), &got, "a pipe in place of the book");
    }

    /// Books with few and with many units; files that are absent, cut and lengthened.
    fn stored(&mut self, random: &mut Random, books: Vec<Vec<u8>>) {
        for book in books {
            let (lots, calls) = (book[5] as usize, book[6] as usize);
            let few = amounts_file(lots, calls, &random.numbers(lots + calls, 6));
            self.check(Some(&book), Some(&few));
            self.check(Some(&book), Some(&amounts_file(lots, calls, &vec![1_000_000_000; lots + calls])));
            self.check(Some(&book), None);
            self.check(None, Some(&few));
            self.check(Some(&book[..book.len() - 1]), Some(&few));
            self.check(Some(&book), Some(&few[..few.len() - 1]));
            for more in [1, 2, 5_000] {
                self.check(Some(&long(&book, more)), Some(&few));
                self.check(Some(&book), Some(&long(&few, more)));
            }
        }
        self.check(None, None);
    }

    /// The largest book with all costs at a limit, and random books.
    fn random_books(&mut self, random: &mut Random, version: u16, limit: i64) {
        let most = book_file(version, &Costs::all_at(32, 32, limit));
        let full = amounts_file(32, 32, &[1_000_000_000; 64]);
        for more in [0, 1, 2, 1_000] {
            self.check(Some(&long(&most, more)), Some(&full));
            self.check(Some(&most), Some(&long(&full, more)));
        }
        for turn in 0..100 {
            let (lots, calls) = (1 + random.below(8) as usize, 1 + random.below(8) as usize);
            let costs = costs(random, KINDS[turn % KINDS.len()], lots, calls);
            let costs = in_version(random, version, costs);
            let amounts = amounts_file(lots, calls, &amounts(random, &costs));
            self.check(Some(&book_file(version, &costs)), Some(&amounts));
        }
    }

    /// The largest amounts, 263 bytes of version 1 and 391 of version 2, cut and lengthened about the length of either.
    fn largest_amounts(&mut self) {
        let book = book_file(1, &Costs::own_call(32, 32));
        let first = long(&amounts_file(32, 32, &[1; 64]), 5_000);
        let second = long(&reserved_file(32, 32, &[[3; 32], [1; 32]].concat(), &[2; 32]), 5_000);
        for length in (0..8).chain(255..400).chain([5_000]) {
            self.check(Some(&book), Some(&first[..length]));
            self.check(Some(&book), Some(&second[..length]));
        }
        let full = format!("FULL 32 32\n{}", (0..32).map(|lot| format!("{lot} {lot} 1\n")).collect::<String>());
        self.known(&book, &first[..263], &full);
        self.known(&book, &second[..391], &full);
        [264, 391, 392, 393].iter().for_each(|&length| self.known(&book, &first[..length], "REFUSED 8\n"));
        [263, 264, 390].iter().for_each(|&length| self.known(&book, &second[..length], "REFUSED 6\n"));
        [392, 393, 5_000].iter().for_each(|&length| self.known(&book, &second[..length], "REFUSED 8\n"));
    }
}

/// Work with the program in a new folder.
fn with_place(c: &mut Comparison, program: &Path, work: impl Fn(&mut Place)) {
    let number = FOLDERS.fetch_add(1, Ordering::Relaxed);
    let folder = std::env::temp_dir().join(format!("placer-tests-{}-{number}", std::process::id()));
    fs::create_dir_all(&folder).expect("a folder is made");
    let mut place = Place { c, program: fs::canonicalize(program).expect("the program is there"), folder };
    work(&mut place);
    fs::remove_dir_all(&place.folder).expect("the folder is removed");
}

pub fn program(c: &mut Comparison, program: &Path) {
    with_place(c, program, |place| {
        let random = &mut place.c.random(6);
        place.stored(random, stored_books());
        place.random_books(random, 1, 1_000_000);
        place.known_runs(1, [known_runs(), one_unit()].concat());
        place.known(&stored_books()[2], &amounts_file(2, 2, &[2, 0, 1, 0]), "COVERED 1 0\n0 0 1\n");
        place.odd_files();
    });
}

/// The same with books of version 2: a cost below zero, and one of zero.
pub fn rebates(c: &mut Comparison, program: &Path) {
    with_place(c, program, |place| {
        let random = &mut place.c.random(7);
        place.stored(random, stored_rebates());
        place.random_books(random, 2, -1_000_000);
        place.known_runs(2, [known_rebates(), known_runs()].concat());
        place.known(&stored_rebates()[0], &amounts_file(2, 2, &[5, 4, 3, 6]), "FULL 9 -14\n0 1 5\n1 0 3\n1 1 1\n");
        place.known(&book_file(2, &rows(&[&[-1, 1]])), &amounts_file(1, 2, &[2, 1, 1]), "FULL 2 0\n0 0 1\n0 1 1\n");
    });
}

/// Books without lots or calls print one line alone.
pub fn new_desks(c: &mut Comparison, program: &Path) {
    with_place(c, program, |place| {
        let random = &mut place.c.random(8);
        for version in [1, 2] {
            for ((lots, calls), amounts, verdict, _) in known_desks() {
                let (book, amounts) = (book_file(version, &desk(lots, calls)), amounts_file(lots, calls, &amounts));
                place.known(&book, &amounts, &format!("{} 0 0\n", verdict.word()));
            }
            for (lots, calls) in sizes() {
                let amounts = amounts_file(lots, calls, &random.numbers(lots + calls, 2));
                place.check(Some(&book_file(version, &desk(lots, calls))), Some(&amounts));
            }
            let some = [(0, 0), (0, 1), (1, 0), (0, 32), (32, 0)];
            place.stored(random, some.iter().map(|&(lots, calls)| book_file(version, &desk(lots, calls))).collect());
        }
        for (lots, calls, refused) in [(0, 33, 4), (33, 0, 4), (2, 0, 6)] {
            place.known(&[b'C', b'L', b'B', 1, 0, lots, calls], &[], &format!("REFUSED {refused}\n"));
        }
        place.known(&[&book_file(1, &desk(1, 0))[..10], &[1]].concat(), &[], "REFUSED 5\n");
    });
}

/// Amounts of version 2: F1 beside reserves, refusals, the largest amounts, and random books.
pub fn reserves(c: &mut Comparison, program: &Path) {
    with_place(c, program, |place| {
        let (random, f1) = (&mut place.c.random(9), &stored_books()[0]);
        place.known(f1, &f1_amounts(), F1);
        place.known(f1, &reserved_file(2, 2, &[5, 4, 3, 6], &[1, 0]), "SHORT 8 22\n0 1 4\n1 0 3\n1 1 1\n");
        for (version, refused) in [(0, 3), (1, 8), (3, 3), (258, 3)] {
            place.known(f1, &relabelled(&f1_amounts(), version), &format!("REFUSED {refused}\n"));
        }
        for (last, refused) in [(6, 21), (1_000_000_001, 16)] {
            place.known(f1, &reserved_file(2, 2, &[5, 4, 3, last], &[0, 5]), &format!("REFUSED {refused}\n"));
        }
        place.largest_amounts();
        for turn in 0..100 {
            let (lots, calls) = (random.below(9) as usize, random.below(9) as usize);
            let costs = costs(random, KINDS[turn % KINDS.len()], lots, calls);
            place.check(Some(&book_file(1, &costs)), Some(&any_reserved(random, &costs)));
        }
    });
}
