//! The listing of every input in tests/listing/cases.txt.

use reference::listing::listing;

const CASES: &str = include_str!("../../../tests/listing/cases.txt");

/// The bytes of a line of hex.
fn bytes(line: &str) -> Vec<u8> {
    line.split_whitespace().map(|byte| u8::from_str_radix(byte, 16).expect("hex digits")).collect()
}

#[test]
fn every_case() {
    let mut compared = 0;
    for case in CASES.split("\n\n") {
        let Some(input) = case.lines().find_map(|line| line.strip_prefix('<')) else { continue };
        let lines = case.lines().filter_map(|line| line.strip_prefix("> "));
        let expected: String = lines.map(|line| format!("{line}\n")).collect();
        assert_eq!(listing(&bytes(input)), expected, "{case}");
        compared += 1;
    }
    assert_eq!(compared, CASES.lines().filter(|line| line.starts_with('<')).count());
    assert!(compared > 20);
}
