//! What the C header and this crate both have for people: the words of the refusals, and the version.
use std::collections::BTreeMap;
use tulonkasa::Refusal;

const HEADER: &str = include_str!("../../../include/tulonkasa.h");

/// The header's lines that begin with these words, what follows them.
fn lines(begin: &str) -> impl Iterator<Item = &str> {
    HEADER.lines().filter_map(move |line| line.trim_start().strip_prefix(begin))
}

/// The number of each name that begins with `TK_REFUSED_`.
fn numbers() -> BTreeMap<&'static str, u32> {
    let named = lines("TK_REFUSED_").filter_map(|line| line.split_once(" = "));
    named.map(|(name, rest)| (name, rest.split([',', ' ']).next().unwrap().parse().unwrap())).collect()
}

#[test]
fn a_refusal_has_the_headers_words() {
    let numbers = numbers();
    let mut texts = 0;
    for case in lines("case TK_REFUSED_") {
        let (name, rest) = case.split_once(": return \"").unwrap();
        let words = rest.strip_suffix("\";").unwrap();
        assert_eq!(Refusal::from_number(numbers[name]).unwrap().words(), words, "{name}");
        texts += 1;
    }
    assert_eq!(texts, numbers.len());
    let unnamed = lines("default: return \"").next().unwrap().strip_suffix("\";").unwrap();
    for number in 1..100 {
        let refusal = Refusal::from_number(number).unwrap();
        let named = numbers.values().any(|&other| other == number);
        assert_eq!(matches!(refusal, Refusal::Other(_)), !named, "{number}");
        assert_eq!(refusal.words() == unnamed, !named, "{number}");
    }
}

#[test]
fn the_version_is_the_headers_and_the_librarys() {
    let number = |name: &str| -> u32 { lines(name).next().unwrap().trim().parse().unwrap() };
    let [major, minor, patch] = ["MAJOR", "MINOR", "PATCH"].map(|part| number(&format!("#define TK_VERSION_{part}")));
    assert_eq!(format!("{major}.{minor}.{patch}"), env!("CARGO_PKG_VERSION"));
    assert_eq!(tulonkasa::version(), 1_000_000 * major + 1000 * minor + patch);
}
