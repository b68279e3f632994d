//! The wrong references, and the parts in which each has to be noticed.
use crate::library::{Comparison, Tallies, PLACE};
use crate::wrong::{Errors, Wrong, BEFORE_REQUEST_5, REQUEST_5, REQUEST_6, REQUEST_7};
use crate::{eight_by_eight, known, known_reserves, new_desks, program, reserves, run_all, samples, sections, versions, Work, SMALL};
use std::path::Path;

/// Whether a wrong reference was noticed: by each of these entry points, or by any where none is named.
fn noticed(tallies: &Tallies, names: &[&str]) -> bool {
    let differing = || tallies.iter().filter(|(_, tally)| tally.differences > 0);
    differing().next().is_some() && names.iter().all(|name| differing().any(|(key, _)| key.0 == *name))
}

/// Parts until a wrong reference is noticed.
fn notice(c: &mut Comparison, names: &[&str], parts: &[&dyn Fn(&mut Comparison)]) {
    let _ = parts.iter().any(|part| {
        part(c);
        noticed(&c.tallies, names)
    });
}

/// The parts in which an error from before request 5 is to be noticed.
fn notice_before_request_5(c: &mut Comparison, names: &[&str], path: &Path) {
    let parts: [&dyn Fn(&mut Comparison); 9] = [
        &|c| sections::random_books(c, 1, 200, (1, 6), 2),
        &|c| sections::random_books(c, 2, 200, (1, 6), 2),
        &|c| sections::damage(c, &samples::stored_books()[..4]),
        &sections::limits,
        &|c| sections::small_books(c, 1, &SMALL),
        &known::known_idle,
        &versions::cost_limits,
        &versions::versions,
        &|c| {
            if names.contains(&PLACE) {
                program::rebates(c, path)
            }
        },
    ];
    notice(c, names, &parts);
}

/// The parts in which an error of request 5 is to be noticed.
fn notice_request_5(c: &mut Comparison, names: &[&str], path: &Path) {
    let parts: [&dyn Fn(&mut Comparison); 6] = [
        &new_desks::few,
        &new_desks::known,
        &|c| new_desks::counts(c, &[0, 1, 33]),
        &|c| new_desks::words(c, 2),
        &new_desks::amounts,
        &|c| {
            if names.contains(&PLACE) {
                program::new_desks(c, path)
            }
        },
    ];
    notice(c, names, &parts);
}

/// The parts in which an error of request 6 is to be noticed.
fn notice_request_6(c: &mut Comparison, names: &[&str], _: &Path) {
    let parts: [&dyn Fn(&mut Comparison); 5] = [
        &eight_by_eight::known,
        &|c| eight_by_eight::counts(c, &[0, 1, 8, 9, 32, 33]),
        &|c| eight_by_eight::above(c, &[0, 1, 8, 9]),
        &|c| eight_by_eight::kinds(c, 1),
        &|c| sections::random_books(c, 1, 100, (6, 12), 2),
    ];
    notice(c, names, &parts);
}

/// The parts in which an error of request 7 is to be noticed.
fn notice_request_7(c: &mut Comparison, names: &[&str], path: &Path) {
    let parts: [&dyn Fn(&mut Comparison); 5] = [
        &known_reserves::known,
        &|c| reserves::lengths(c, &[(0, 1), (1, 0), (1, 2)]),
        &|c| reserves::random_books(c, 200, 4),
        &reserves::causes,
        &|c| {
            if names.contains(&PLACE) {
                program::reserves(c, path)
            }
        },
    ];
    notice(c, names, &parts);
}

/// The wrong references that were not noticed, and how many there are; those of the printing program are left out where it is not built.
pub fn missed(path: &Path, seed: u64) -> (Vec<Wrong>, usize) {
    let each = |errors: Errors, notice: fn(&mut Comparison, &[&str], &Path)| {
        let built = errors.iter().filter(|(_, names)| path.is_file() || !names.contains(&PLACE));
        built.map(move |&(wrong, names)| (names, (wrong, Box::new(move |c: &mut Comparison| notice(c, names, path)) as Work)))
    };
    let all = each(BEFORE_REQUEST_5, notice_before_request_5).chain(each(REQUEST_5, notice_request_5));
    let all = all.chain(each(REQUEST_6, notice_request_6)).chain(each(REQUEST_7, notice_request_7));
    let (names, parts): (Vec<_>, Vec<_>) = all.unzip();
    let outcomes = run_all(&parts, seed);
    let missed = (0..parts.len()).filter(|&k| !noticed(&outcomes[k].tallies, names[k]));
    (missed.map(|k| parts[k].0).collect(), parts.len())
}
