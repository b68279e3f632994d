//! Every public function has an example in its documentation.

const SOURCES: [&str; 6] = [
    include_str!("../entry_points.rs"),
    include_str!("../files.rs"),
    include_str!("../lists.rs"),
    include_str!("../refusal.rs"),
    include_str!("../verdict.rs"),
    include_str!("../version.rs"),
];

#[test]
fn every_function_has_an_example() {
    let mut functions = 0;
    for source in SOURCES {
        let mut example = false;
        for line in source.lines().map(str::trim_start) {
            if line.starts_with("pub fn ") {
                assert!(example, "{line}");
                functions += 1;
            }
            example = line.starts_with("/// ```") || example && line.starts_with("///");
        }
    }
    assert!(functions >= 20);
}
