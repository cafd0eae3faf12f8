//! What the bindings and the C header both say is the same.
use chhayublo::{Refusal, MAX_BUNDLE, MAX_COLUMNS, MAX_ENTRIES, MAX_K, MAX_ROWS, VERSION};

const HEADER: &str = include_str!("../../../include/chhayublo.h");

/// what stands between the two texts, the first time that they follow each other
fn between<'a>(text: &'a str, start: &str, end: &str) -> &'a str {
    let from = text.find(start).unwrap_or_else(|| panic!("the header has no {start}")) + start.len();
    let length = text[from..].find(end).unwrap_or_else(|| panic!("{start} has no {end}"));
    &text[from..from + length]
}

/// the header's refusals: name, number, and the comment beside them
fn listed() -> Vec<(&'static str, u64, &'static str)> {
    let lines = between(HEADER, "enum chhayublo_refusal {", "};").lines().filter(|line| line.contains(" = "));
    lines
        .map(|line| (between(line, "CHHAYUBLO_", " = "), number(between(line, " = ", "/*")), between(line, "/* ", " */")))
        .collect()
}

fn number(text: &str) -> u64 {
    text.trim_matches(|c| c == ' ' || c == ',').parse().expect("a number")
}

#[test]
fn refusals_have_the_words_of_the_header() {
    let texts = between(HEADER, "chhayublo_refusal_text(", "default:");
    for (name, number, comment) in listed().into_iter().skip(1) {
        let refusal = Refusal::from_number(number).unwrap_or_else(|| panic!("{name} has no refusal"));
        assert_eq!((refusal.number(), refusal.text()), (number, comment));
        assert_eq!(refusal.to_string(), format!("refused {number}: {comment}"));
        assert_eq!(between(texts, &format!("case CHHAYUBLO_{name}: return \""), "\";"), comment);
        assert_eq!(format!("{refusal:?}").to_uppercase(), name.replace('_', ""));
    }
}

#[test]
fn the_header_lists_every_refusal() {
    let numbers: Vec<u64> = listed().iter().map(|(_, number, _)| *number).collect();
    assert_eq!(numbers, [(0..=13).collect::<Vec<u64>>(), (20..=29).collect()].concat());
    for number in (0..1000).chain([u64::MAX]) {
        assert_eq!(Refusal::from_number(number).is_some(), number != 0 && numbers.contains(&number), "{number}");
    }
}

#[test]
fn version_and_limits_are_those_of_the_header() {
    assert_eq!(number(between(HEADER, "#define CHHAYUBLO_VERSION", "\n")), VERSION);
    let limits =
        [("ROWS", MAX_ROWS), ("COLUMNS", MAX_COLUMNS), ("K", MAX_K), ("ENTRIES", MAX_ENTRIES), ("BUNDLE_BYTES", MAX_BUNDLE)];
    for (name, limit) in limits {
        assert_eq!(number(between(HEADER, &format!("CHHAYUBLO_MAX_{name} = "), ",")), limit as u64, "{name}");
    }
}
