//! The limits, held to those of the C header where it stands beside the crate: in the repository, or in a release.
use super::*;
use std::{fs::read_to_string, path::Path};

#[test]
fn limits_of_the_header() {
    let root = Path::new(env!("CARGO_MANIFEST_DIR"));
    let headers = ["../../include/placer.h", "../../../include/placer.h"];
    let header = match headers.iter().find_map(|header| read_to_string(root.join(header)).ok()) {
        Some(header) => header,
        None => return,
    };
    for (name, limit) in [
        ("LOTS_MAX", SIDE_MAX as i64),
        ("CALLS_MAX", SIDE_MAX as i64),
        ("COST_MAX", COST_MAX.into()),
        ("COST_MIN", COST_MIN.into()),
        ("AMOUNT_MAX", AMOUNT_MAX.into()),
        ("BOOK_MAX", BOOK_MAX as i64),
        ("ORDER_MAX", ORDER_MAX as i64),
        ("AMOUNTS_MAX", AMOUNTS_MAX as i64),
        ("FLOW_MAX", FLOW_MAX as i64),
        ("PANEL_SIDE_MAX", PANEL_SIDE_MAX as i64),
        ("PANEL_FLOW_MAX", PANEL_FLOW_MAX as i64),
    ] {
        let (_, rest) = header.split_once(&format!("#define PLACER_{name} ")).unwrap();
        let number = rest.split_whitespace().next().unwrap().trim_matches(|sign| sign == '(' || sign == ')');
        assert_eq!(number.parse(), Ok(limit), "{name}");
    }
}
