//! The package and the header name the same functions and the same sizes.

use yegetmur::capi::{STATE_WORDS, TAG_WORDS, WORDS_PER_START};
use yegetmur::Refusal;

const HEADER: &str = include_str!("../../../include/zuc.h");
const DECLARATIONS: &str = include_str!("../src/ffi.rs");
const WRAPPERS: &str = include_str!("../src/capi.rs");

/// The number that the header defines a name to be.
fn defined(name: &str) -> u32 {
    let line = HEADER
        .lines()
        .find_map(|line| line.strip_prefix(&format!("#define {name} ")));
    let number = line.and_then(|rest| rest.split_whitespace().next());
    number.unwrap().trim_end_matches('u').parse().unwrap()
}

/// What follows `prefix` on the lines that begin with it, up to the parenthesis.
fn functions<'a>(text: &'a str, prefix: &str) -> Vec<&'a str> {
    let lines = text
        .lines()
        .filter_map(|line| line.trim_start().strip_prefix(prefix));
    lines
        .filter_map(|rest| Some(rest.split_once('(')?.0))
        .collect()
}

#[test]
fn functions_agree() {
    let names = functions(HEADER, "uint32_t ");
    assert_eq!(names.len(), 28);
    assert_eq!(functions(DECLARATIONS, "pub fn "), names);
    assert_eq!(functions(WRAPPERS, "pub fn "), names);
}

#[test]
fn numbers_agree() {
    assert_eq!(defined("ZUC_STATE_WORDS") as usize, STATE_WORDS);
    assert_eq!(defined("ZUC_TAG_WORDS") as usize, TAG_WORDS);
    assert_eq!(defined("ZUC_WORDS_PER_START"), WORDS_PER_START);
    assert_eq!(defined("ZUC_BAD_WIDTH"), Refusal::Width.number());
    assert_eq!(defined("ZUC_BAD_KEY"), Refusal::Key.number());
    assert_eq!(defined("ZUC_BAD_FIELD"), Refusal::Field.number());
    assert_eq!(defined("ZUC_BAD_IV"), Refusal::Iv.number());
    assert_eq!(defined("ZUC_BAD_STATE"), Refusal::State.number());
    assert_eq!(defined("ZUC_BAD_BITS"), Refusal::Bits.number());
    assert_eq!(defined("ZUC_SPENT"), Refusal::Limit.number());
    assert_eq!(defined("ZUC_BAD_FRAME"), Refusal::Frame.number());
    assert_eq!(defined("ZUC_BAD_LENGTH"), Refusal::Length.number());
    assert_eq!(defined("ZUC_BAD_BODY"), Refusal::Body.number());
    assert_eq!(defined("ZUC_BAD_TAG"), Refusal::Tag.number());
    assert_eq!(defined("ZUC_BAD_LINK"), Refusal::Link.number());
    assert_eq!(defined("ZUC_BAD_AGE"), Refusal::Age.number());
    assert_eq!(defined("ZUC_BAD_REUSE"), Refusal::Reuse.number());
}
