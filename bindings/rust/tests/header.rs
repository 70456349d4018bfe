//! The header, the Fortran module and this package have the same numbers, texts and version.

use hpf_remap::formats::{self, Letter, Reference};
use hpf_remap::refusal::{self, TEXTS};
use std::collections::BTreeMap;

const HEADER: &str = include_str!("../../../include/hpf_remap.h");
const MODULE: &str = include_str!("../../../examples/fortran/hpf_remap.f90");
const PROGRAM: &str = include_str!("../../../cli/Cargo.toml");

fn number(text: &str) -> Option<u64> {
    let text = text.trim().trim_end_matches(',');
    if let Some(digits) = text.strip_prefix("0x") {
        return u64::from_str_radix(digits, 16).ok();
    }
    let letter = text.strip_prefix('\'').or(text.strip_prefix("iachar('"));
    if let Some(letter) = letter.and_then(|text| text.bytes().next()) {
        return Some(u64::from(letter));
    }
    text.parse().ok()
}

/// The numbers of the header, without HPF_, in small letters.
fn of_header() -> BTreeMap<String, u64> {
    let lines = HEADER.lines().filter_map(|line| {
        let line = line.split("/*").next()?.trim();
        let named = match line.strip_prefix("#define HPF_") {
            Some(named) => named.split_once(' '),
            None => line.strip_prefix("HPF_")?.split_once(" = "),
        };
        let (name, value) = named?;
        Some((name.to_lowercase(), number(value)?))
    });
    let refusals = of_refusals();
    let refusals = refusals
        .iter()
        .map(|(name, number, _)| (name.to_lowercase(), *number));
    lines.chain(refusals).collect()
}

/// The refusals of the header: name without HPF_, number, text.
fn of_refusals() -> Vec<(String, u64, String)> {
    let refusals = HEADER.lines().filter_map(|line| {
        let line = line.trim().strip_prefix("refusal(HPF_")?;
        let (name, rest) = line.split_once(", ")?;
        let (number, rest) = rest.split_once(", \"")?;
        let (text, _) = rest.rsplit_once("\")")?;
        Some((String::from(name), number.parse().ok()?, String::from(text)))
    });
    refusals.collect()
}

/// The numbers of the Fortran module, without hpf_.
fn of_module() -> BTreeMap<String, u64> {
    let parameters = MODULE.lines().filter_map(|line| {
        let line = line
            .trim()
            .strip_prefix("integer, parameter, public :: hpf_")?;
        let (name, value) = line.split_once(" = ")?;
        Some((String::from(name), number(value)?))
    });
    parameters.collect()
}

/// The numbers of this package, by the names that the header has.
fn of_package() -> BTreeMap<String, u64> {
    use formats as f;
    let bytes = [
        ("local", f::LOCAL),
        ("in", f::IN),
        ("out", f::OUT),
        ("inout", f::INOUT),
        ("nothing", f::NOTHING),
        ("read", f::READ),
        ("define", f::DEFINE),
        ("modify", f::MODIFY),
        ("kill", f::KILL),
        ("remap_to", f::REMAP),
        ("call_in", f::CALL_IN),
        ("call_out", f::CALL_OUT),
        ("call_inout", f::CALL_INOUT),
        ("letter_n", Letter::N.byte()),
        ("letter_d", Letter::D.byte()),
        ("letter_r", Letter::R.byte()),
        ("letter_w", Letter::W.byte()),
        ("kind_read", Reference::Read.kind()),
        ("kind_define", Reference::Define.kind()),
        ("kind_modify", Reference::Modify.kind()),
        ("kind_kill", Reference::Kill.kind()),
        ("none", f::NONE),
        ("done", 0),
    ];
    let stamps = [
        ("never_given", f::NEVER_GIVEN),
        ("callers_stamp", f::CALLERS_STAMP),
    ];
    let sizes = [
        ("largest_directives", hpf_remap::LARGEST_DIRECTIVES),
        ("largest_routine", hpf_remap::LARGEST_ROUTINE),
        ("largest_plan", hpf_remap::LARGEST_PLAN),
        ("largest_report", hpf_remap::LARGEST_REPORT),
        ("largest_rounds", hpf_remap::LARGEST_ROUNDS),
        ("longest_path", hpf_remap::LONGEST_PATH),
    ];
    let refusals = [
        ("short_buffer", refusal::SHORT_BUFFER),
        ("short_report", refusal::SHORT_REPORT),
        ("wrong_mark", refusal::WRONG_MARK),
        ("wrong_edition", refusal::WRONG_EDITION),
        ("wrong_count", refusal::WRONG_COUNT),
        ("wrong_offset", refusal::WRONG_OFFSET),
        ("wrong_array", refusal::WRONG_ARRAY),
        ("unknown_action", refusal::UNKNOWN_ACTION),
        ("wrong_edge", refusal::WRONG_EDGE),
        ("version_too_large", refusal::VERSION_TOO_LARGE),
        ("action_at_end", refusal::ACTION_AT_END),
        ("mixed_actions", refusal::MIXED_ACTIONS),
        ("writes_in_argument", refusal::WRITES_IN_ARGUMENT),
        ("ambiguous", refusal::AMBIGUOUS),
        ("too_many_vertices", refusal::TOO_MANY_VERTICES),
        ("wrong_path_length", refusal::WRONG_PATH_LENGTH),
        ("wrong_start", refusal::WRONG_START),
        ("no_such_edge", refusal::NO_SUCH_EDGE),
        ("malformed_directives", refusal::MALFORMED_DIRECTIVES),
        ("too_many_mappings", refusal::TOO_MANY_MAPPINGS),
        ("two_mappings", refusal::TWO_MAPPINGS),
    ];
    let named = |(name, number): (&str, u64)| (String::from(name), number);
    bytes
        .map(|(name, byte)| (name, u64::from(byte)))
        .into_iter()
        .chain(stamps.map(|(name, stamp)| (name, u64::from(stamp))))
        .chain(sizes.map(|(name, size)| (name, size as u64)))
        .chain(refusals)
        .map(named)
        .collect()
}

/// The version of this package, as a number.
fn version() -> u64 {
    let numbers = env!("CARGO_PKG_VERSION").split('.');
    numbers.fold(0, |version, number| {
        100 * version + number.parse::<u64>().expect("a number")
    })
}

#[test]
fn numbers() {
    let mut header = of_header();
    assert_eq!(header.remove("version"), Some(version()));
    assert_eq!(header, of_package());
    let mut module = of_module();
    assert_eq!(module.remove("module_version"), Some(version()));
    assert_eq!(module, of_package());
}

#[test]
fn texts() {
    let found = of_refusals();
    let found: Vec<(u64, &str)> = found
        .iter()
        .map(|(_, number, text)| (*number, text.as_str()))
        .collect();
    assert_eq!(found, TEXTS);
    for (_, text) in TEXTS {
        let text = text.replace('\'', "''");
        assert!(MODULE.contains(&format!("text = '{text}'\n")), "{text}");
    }
}

#[test]
fn versions() {
    let version = env!("CARGO_PKG_VERSION");
    assert!(HEADER.contains(&format!("#define HPF_VERSION_TEXT \"{version}\"\n")));
    assert!(PROGRAM.contains(&format!("version = \"{version}\"\n")));
}
