//! The refusals by number: names, files and sentences.
use super::*;

fn of(number: u32) -> Refusal {
    Refusal::of(Reply { number, verdict: 0, values: [10, 11, 12, 13] }, &|| File::Order)
}

#[test]
fn refusals_by_number() {
    for number in 1..=21 {
        assert_eq!(of(number).number(), Some(number));
    }
    // a number that this crate does not know is never told as another refusal
    for number in [0, 22, 255, u32::MAX] {
        assert_eq!((of(number), of(number).number(), of(number).file()), (Refusal::Unknown(number), Some(number), None));
    }
    let other = Refusal::OtherLibrary { library: VERSION };
    assert_eq!((other.number(), other.file()), (None, None));
}

#[test]
fn files_by_number() {
    for number in 1..=21 {
        let file = match number {
            1 | 2 | 3 | 6 | 8 => Some(File::Order), // as they are told
            4 | 5 | 7 | 13 | 19 | 20 => Some(File::Book),
            9 | 10 | 11 | 12 | 14 => Some(File::Order),
            15 | 16 | 18 | 21 => Some(File::Amounts),
            _ => None,
        };
        assert_eq!(of(number).file(), file);
    }
}

#[test]
fn file_is_asked_for_by_five_alone() {
    use core::cell::Cell;
    for number in 0..=22 {
        let asked = Cell::new(0);
        let file = || {
            asked.set(asked.get() + 1);
            File::Amounts
        };
        let _ = Refusal::of(Reply { number, verdict: 0, values: [0; 4] }, &file);
        assert_eq!(asked.get(), [1, 2, 3, 6, 8].contains(&number) as u32);
    }
}

#[cfg(feature = "std")]
#[test]
fn sentences_of_the_list() {
    let docs = std::path::Path::new(env!("CARGO_MANIFEST_DIR")).join("../../docs");
    if !docs.is_dir() {
        return; // a release, which has no list
    }
    let list = std::fs::read_to_string(docs.join("refusals.tsv")).unwrap();
    let lines: Vec<Vec<&str>> = list.lines().skip(1).map(|line| line.split('\t').collect()).collect();
    assert_eq!(lines.len(), 22);
    for (number, line) in (0..).zip(&lines).skip(1) {
        let (refusal, name) = (of(number), line[1].replace('_', "").to_lowercase());
        let known: Vec<String> = line[2].split_terminator(", ").zip(10..).map(|(name, value)| format!("{name} {value}")).collect();
        let brackets = match number {
            1 | 2 | 3 | 6 | 8 => " [order]".to_string(),
            _ if known.is_empty() => String::new(),
            _ => format!(" [{}]", known.join(", ")),
        };
        assert_eq!(line[0], number.to_string());
        assert!(format!("{refusal:?}").to_lowercase().split(&[' ', '('][..]).next() == Some(&name), "{refusal:?} is {name}");
        assert_eq!(refusal.to_string(), format!("{}{brackets}", line[3]));
    }
}

#[cfg(feature = "std")]
#[test]
fn sentences_of_this_crate() {
    assert_eq!(of(99).to_string(), "not a number of this library [number 99]");
    assert_eq!([File::Book, File::Order, File::Amounts].map(|file| file.to_string()), ["book", "order", "amounts"]);
    let library = Version { major: 2, minor: 1, patch: 0 };
    let (major, minor) = (VERSION.major, VERSION.minor);
    let needs = format!("the library libplacer is of version 2.1.0, this crate needs {major}.{minor} or a later {major}.x");
    assert_eq!(Refusal::OtherLibrary { library }.to_string(), needs);
    assert_eq!(VERSION.to_string(), env!("CARGO_PKG_VERSION"));
}
