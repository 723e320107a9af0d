//! The C header and this wrapper name the same refusals.

use cimbrolau::Kind;

fn header() -> String {
    let header = concat!(env!("CARGO_MANIFEST_DIR"), "/../../include/cimbrolau.h");
    std::fs::read_to_string(header).expect("the header is there")
}

/// Each `CIMBROLAU_NAME = NUMBER` of the header.
fn named() -> Vec<(String, u32)> {
    let text = header();
    let name = |line: &str| {
        let (name, rest) = line.trim().strip_prefix("CIMBROLAU_")?.split_once(" = ")?;
        let digits: String = rest.chars().take_while(char::is_ascii_digit).collect();
        Some((name.to_string(), digits.parse().ok()?))
    };
    text.lines().filter_map(name).collect()
}

#[test]
fn the_header_has_these_refusals_and_no_other() {
    let mut expected = vec![("TAKEN".to_string(), 0)];
    expected.extend(Kind::all().map(|kind| (kind.name().to_string(), kind.number())));
    assert_eq!(named(), expected);
}

#[test]
fn each_refusal_has_its_name_in_c() {
    let text = header();
    for (name, _) in named() {
        let case = format!("case CIMBROLAU_{name}: return \"{name}\";");
        assert!(text.contains(&case), "{case}");
    }
    assert_eq!(text.matches("case CIMBROLAU_").count(), named().len());
}

#[test]
fn the_version_is_that_of_the_crate() {
    let version = concat!("#define CIMBROLAU_LIBRARY_VERSION \"", env!("CARGO_PKG_VERSION"), "\"");
    assert!(header().contains(version));
}
