//! Which file a refusal 1, 2, 3, 6 or 8 is about: through every entry point, for each of its files, and for several bad files at once.
use super::*;

type Call = fn(&[u8], &[u8], &[u8]) -> Option<Refusal>;
type Named = fn(File) -> Refusal;
type Damage = fn(&mut Vec<u8>);

/// A good book, order and amounts.
fn good() -> [Vec<u8>; 3] {
    let book = book_bytes(&[[1, 2], [3, 5]], 2).unwrap();
    let order = order_bytes(&[(0, 1), (0, 0), (1, 0), (1, 1)]).unwrap();
    [book, order, amounts_bytes(&[5, 4], &[3, 6], Some(&[0, 0])).unwrap()]
}

/// Every function that takes files, and the files that it takes.
const CALLS: [(&[File], Call); 12] = [
    (&[File::Book], |book, _, _| read_book(book).err()),
    (&[File::Book], |book, _, _| pair_cost(book, 0, 0).err()),
    (&[File::Book], |book, _, _| find_order(book, &mut [0; ORDER_MAX]).err()),
    (&[File::Book], |book, _, _| book_costs(book).err()),
    (&[File::Order], |_, order, _| order_pairs(order).err()),
    (&[File::Amounts], |_, _, amounts| amounts_lists(amounts).err()),
    (&[File::Book, File::Order], |book, order, _| check_order(book, order).err()),
    (&[File::Book, File::Amounts], |book, _, amounts| read_amounts(book, amounts).err()),
    (&[File::Book, File::Amounts], |book, _, amounts| find_and_run(book, amounts, &mut [0; 4]).err()),
    (&[File::Book, File::Amounts], |book, _, amounts| find_and_run_idle(book, amounts, &mut [0; 4]).err()),
    (&[File::Book, File::Amounts], |book, _, amounts| find_and_run_panel(book, amounts, &mut [0; 4]).err()),
    (&[File::Book, File::Order, File::Amounts], |book, order, amounts| run_order(book, order, amounts, &mut [0; 4]).err()),
];

/// The five numbers: each as a refusal of a file, and what makes a good file be refused by it.
const FIVE: [(Named, Damage); 5] = [
    (Refusal::UnderSeven, |bytes| bytes.truncate(6)),
    (Refusal::MarkDiffers, |bytes| bytes[2] = b'X'),
    (Refusal::VersionNotOne, |bytes| bytes[4] = 1),
    (Refusal::EndsEarly, |bytes| bytes.truncate(bytes.len() - 1)),
    (Refusal::BytesAfter, |bytes| bytes.push(0)),
];

#[test]
fn good_files_pass() {
    let [book, order, amounts] = good();
    for (files, call) in CALLS {
        assert_eq!(call(&book, &order, &amounts), None, "{files:?}");
    }
}

#[test]
fn one_bad_file() {
    for ((files, call), (refusal, damage)) in CALLS.iter().flat_map(|call| FIVE.map(|five| (call, five))) {
        for bad in [File::Book, File::Order, File::Amounts] {
            let mut given = good();
            damage(&mut given[bad as usize]);
            let [book, order, amounts] = &given;
            let told = call(book, order, amounts);
            assert_eq!(told, files.contains(&bad).then(|| refusal(bad)), "{files:?}");
            assert_eq!(told.and_then(|refusal| refusal.file()), told.map(|_| bad));
        }
    }
}

#[test]
fn several_bad_files() {
    // the first of the book, the order and the amounts is told, whatever the others are refused for
    let fives = FIVE.iter().flat_map(|first| FIVE.map(|second| (first, second)));
    for ((files, call), ((refusal, damage), (_, later))) in CALLS.iter().flat_map(|call| fives.clone().map(move |five| (call, five))) {
        let mut given = good();
        damage(&mut given[files[0] as usize]);
        files[1..].iter().for_each(|&file| later(&mut given[file as usize]));
        let [book, order, amounts] = &given;
        assert_eq!(call(book, order, amounts), Some(refusal(files[0])), "{files:?}");
    }
    // of a run by an order also where the book is good
    for ((refusal, damage), (_, later)) in FIVE.iter().flat_map(|first| FIVE.map(|second| (first, second))) {
        let [book, mut order, mut amounts] = good();
        damage(&mut order);
        later(&mut amounts);
        assert_eq!(run_order(&book, &order, &amounts, &mut [0; 4]), Err(refusal(File::Order)));
    }
}
