//! The crate beside the C header: one version, every function that the library has is declared in sys/src/lib.rs, and each refusal has the
//! header's text.

use huskelapse::Refusal;

const HEADER: &str = include_str!("../../include/huskelapse.h");
const CALLS: &str = include_str!("../sys/src/lib.rs");

/// The names of functions in a text: what stands before a bracket.
fn functions(text: &str) -> Vec<&str> {
    let is_name = |c: char| c.is_ascii_lowercase() || c == '_';
    let calls = text.split('(').map(|before| &before[before.trim_end_matches(is_name).len()..]);
    calls.filter(|name| name.starts_with("husk_")).collect()
}

/// The header without comments and without functions that it defines itself.
fn declarations() -> String {
    let code = HEADER.split("/*").map(|part| part.split_once("*/").map_or(part, |(_, code)| code)).collect::<String>();
    let inline = code.split("static inline ").map(|part| part.split_once("\n}").map_or(part, |(_, rest)| rest));
    inline.collect()
}

#[test]
fn one_version() {
    let version = env!("CARGO_PKG_VERSION");
    assert!(HEADER.contains(&format!("#define HUSK_VERSION \"{version}\"\n")));
    let parts = [
        ("MAJOR", env!("CARGO_PKG_VERSION_MAJOR")),
        ("MINOR", env!("CARGO_PKG_VERSION_MINOR")),
        ("PATCH", env!("CARGO_PKG_VERSION_PATCH")),
    ];
    for (name, part) in parts {
        assert!(HEADER.contains(&format!("#define HUSK_VERSION_{name} {part}\n")), "HUSK_VERSION_{name} is not {part}");
    }
}

#[test]
fn every_function_is_declared() {
    let mut declared = functions(&CALLS[CALLS.find("unsafe extern").unwrap()..CALLS.find("// SAFETY").unwrap()]);
    let text = declarations();
    let mut library = functions(&text);
    declared.sort_unstable();
    library.sort_unstable();
    assert!(library.len() > 20);
    assert_eq!(declared, library);
}

#[test]
fn each_refusal_has_the_headers_text() {
    let list = HEADER.split_once("text[] = {\n").and_then(|(_, rest)| rest.split_once("};")).unwrap().0;
    let texts: Vec<&str> = list.lines().filter_map(|line| line.trim().strip_prefix('"')?.strip_suffix("\",")).collect();
    let refusals = [
        Refusal::DatagramTooLong,
        Refusal::Truncated,
        Refusal::TooManyReadings,
        Refusal::BadPlaintext,
        Refusal::BeforeEncryption,
        Refusal::NoKeys,
        Refusal::TooShort,
        Refusal::NumberTooLarge,
        Refusal::Seen,
        Refusal::NotOpened,
        Refusal::NoContentType,
        Refusal::OutOfRange,
        Refusal::BadEpoch,
        Refusal::BadRecord,
        Refusal::NoQuestion,
        Refusal::BufferTooSmall { needed: 74 },
        Refusal::KeysAbsent,
        Refusal::FlightFull,
        Refusal::QueueFull,
        Refusal::NumbersSpent,
        Refusal::MessagesSpent,
        Refusal::ResendsSpent,
        Refusal::Waiting,
        Refusal::BadPiece,
        Refusal::TooManyPieces,
        Refusal::TooOld,
        Refusal::BadMaskKey,
        Refusal::PiecesDisagree,
    ];
    assert_eq!(texts.len(), 1 + refusals.len());
    for (number, refusal) in (1..).zip(refusals) {
        assert_eq!(refusal.number(), number);
        // 16 says besides how many bytes are needed.
        if number != 16 {
            assert_eq!(refusal.to_string(), format!("refusal {number}: {}", texts[usize::from(number)]));
        }
    }
}
