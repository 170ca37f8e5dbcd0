//! The crate's answers as records of bytes, for a reader that has no Rust. README.md
//! says what stands in a record.

use crate::input::{Call, Input, Mode, Start, Tagger};
use crate::plan::{over, STARTS, TAGGERS};
use crate::quiet::caught;
use crate::rng::Rng;
use crate::rules::BAD_BITS;
use crate::users::with_crate;
use crate::{original, port};

/// The bytes of the longest record: what a reader must have room for.
const LONGEST: usize = 255;

/// The answer to an input: what it was refused by, the words drawn where that shows, the
/// bytes of the answer, and the word that comes next where there is one.
struct Answer {
    refusal: u8,
    drawn: u16,
    bytes: Vec<u8>,
    next: u32,
}

/// The text of a record: its fields in hexadecimal digits, spaces between them.
pub fn line(input: &Input) -> String {
    record(fields(input))
}

fn record(mut fields: Vec<Vec<u8>>) -> String {
    let length: usize = fields.iter().map(Vec::len).sum();
    assert!(length <= LONGEST);
    fields.insert(0, (length as u16).to_be_bytes().into());
    text(&fields)
}

/// Records with one field of the answer altered, each field that a reader is to compare:
/// it must find every one of them different. Of each kind of call the first that answers
/// with bytes.
pub fn altered(inputs: &[Input]) -> Vec<String> {
    let mut lines = Vec::new();
    let mut kinds = Vec::new();
    for input in inputs {
        let kind = op_and_width(input.call);
        if kinds.contains(&kind) || answer(input).bytes.is_empty() {
            continue;
        }
        kinds.push(kind);
        for &field in compared(input.call) {
            let mut fields = fields(input);
            let at = fields.len() - field;
            *fields[at].last_mut().expect("no empty field") ^= 1;
            lines.push(record(fields));
        }
    }
    lines
}

/// The fields of an answer that are compared, counted from the end of the record: the next
/// word, the bytes, the words drawn, the refusal.
fn compared(call: Call) -> &'static [usize] {
    match call {
        Call::Words(_) => &[1, 2, 3],
        Call::Mask(..) => &[1, 2, 3, 4],
        _ => &[2, 4],
    }
}

/// The last line of a list: a record with no bytes, so that a list cut short can be told.
pub fn end() -> String {
    text(&[vec![0, 0]])
}

fn text(fields: &[Vec<u8>]) -> String {
    let fields: Vec<String> = fields.iter().map(|field| crate::hex::hex(field)).collect();
    fields.join(" ")
}

fn fields(input: &Input) -> Vec<Vec<u8>> {
    let (op, width) = op_and_width(input.call);
    let answer = answer(input);
    let n = if let Call::Words(_) = input.call { input.words } else { input.bits };
    let mut fields = vec![
        vec![op, width],
        input.count.to_be_bytes().into(),
        vec![input.bearer, input.direction],
        counted(&input.key),
        counted(&input.iv),
        vec![input.cuts.len() as u8],
    ];
    fields.extend(input.pieces().map(counted));
    fields.extend([
        counted(input.tail()),
        (n as u32).to_be_bytes().into(),
        vec![answer.refusal],
        answer.drawn.to_be_bytes().into(),
        counted(&answer.bytes),
        answer.next.to_be_bytes().into(),
    ]);
    fields
}

/// Bytes with their number in front.
fn counted(bytes: &[u8]) -> Vec<u8> {
    let length = u16::try_from(bytes.len()).expect("a short field");
    [&length.to_be_bytes(), bytes].concat()
}

fn op_and_width(call: Call) -> (u8, u8) {
    let of = |start| match start {
        Start::Zuc128 => 1,
        Start::Zuc256 => 2,
        Start::Eea3 => 3,
    };
    match call {
        Call::Words(start) => (of(start), 0),
        Call::Mask(_, start) => (0x10 + of(start), 0),
        Call::Tag(Tagger::Zuc128) => (0x21, 4),
        Call::Tag(Tagger::Zuc256 { width }) => (0x22, width as u8),
        Call::Tag(Tagger::Eia3) => (0x23, 4),
        _ => unreachable!("the crate is lent no state"),
    }
}

fn answer(input: &Input) -> Answer {
    match input.call {
        Call::Words(start) => words(start, input),
        Call::Mask(_, start) => masked(start, input),
        Call::Tag(tagger) => tag(tagger, input),
        _ => unreachable!("the crate is lent no state"),
    }
}

fn words(start: Start, input: &Input) -> Answer {
    let words = with_crate::words(start, input);
    let mut state = original::start_state(start, input);
    assert_eq!(words, original::words(&mut state, input.words));
    Answer {
        refusal: 0,
        drawn: input.words as u16,
        bytes: words.iter().flat_map(|word| word.to_be_bytes()).collect(),
        next: original::draw(&mut state),
    }
}

fn masked(start: Start, input: &Input) -> Answer {
    let mut state = original::start_state(start, input);
    let mut bytes = input.data.clone();
    let drawn = original::mask(&mut state, &mut bytes, input.bits);
    let mut public = input.data.clone();
    if let Some(true) = caught(|| with_crate::mask(start, input, &mut public)) {
        assert_eq!(public, bytes);
    }
    Answer {
        refusal: drawn.map_or(BAD_BITS as u8, |_| 0),
        drawn: drawn.unwrap_or(0) as u16,
        bytes,
        next: original::draw(&mut state),
    }
}

fn tag(tagger: Tagger, input: &Input) -> Answer {
    let tag = caught(|| with_crate::tag_in_steps(tagger, input));
    let halves = tag.map_or([0; 2], |tag| port::split(tagger, tag));
    Answer {
        refusal: tag.map_or(BAD_BITS as u8, |_| 0),
        drawn: 0,
        bytes: halves.iter().flat_map(|half| half.to_be_bytes()).collect(),
        next: 0,
    }
}

/// The inputs that are recorded: always the same.
pub fn inputs() -> Vec<Input> {
    let mut rng = Rng::new(0x5a55_4331);
    let mut inputs = Vec::new();
    recorded_words(&mut rng, &mut inputs);
    recorded_masks(&mut rng, &mut inputs);
    recorded_tags(&mut rng, &mut inputs);
    recorded_cuts(&mut rng, &mut inputs);
    inputs
}

fn recorded_words(rng: &mut Rng, inputs: &mut Vec<Input>) {
    for start in STARTS {
        for words in [0, 1, 2, 16, 17] {
            let input = over(rng, Call::Words(start), 0, 0);
            inputs.push(Input { words, ..input });
        }
        for byte in [0, 0xff] {
            let mut input = over(rng, Call::Words(start), 0, 0);
            input.key.fill(byte);
            input.iv.fill(byte);
            inputs.push(Input { words: 2, ..input });
        }
    }
    for bearer in [0, 1, 31, 32, 255] {
        for direction in [0, 1, 2, 255] {
            let input = over(rng, Call::Words(Start::Eea3), 0, 0);
            inputs.push(Input { bearer, direction, words: 1, ..input });
            let input = over(rng, Call::Tag(Tagger::Eia3), 1, 3);
            inputs.push(Input { bearer, direction, ..input });
        }
    }
}

/// Bit lengths at the edges of a list of bytes and of what it is made of.
fn edge_bits(length: usize, around: &[usize]) -> Vec<usize> {
    let end = 8 * length;
    let near = [0, 1, 7, 8, 9, end.saturating_sub(9), end.saturating_sub(8)];
    let mut bits = near.to_vec();
    bits.extend([end.saturating_sub(7), end.saturating_sub(1), end, end + 1, end + 9]);
    bits.extend(around.iter().flat_map(|bit| [bit - 1, *bit, bit + 1]));
    bits.retain(|&bits| bits <= end + 9);
    bits.sort_unstable();
    bits.dedup();
    bits
}

fn recorded_masks(rng: &mut Rng, inputs: &mut Vec<Input>) {
    for start in STARTS {
        for length in [0, 1, 3, 4, 5, 8, 13] {
            for bits in edge_bits(length, &[32]) {
                inputs.push(over(rng, Call::Mask(Mode::Crate, start), length, bits));
            }
        }
    }
}

fn recorded_tags(rng: &mut Rng, inputs: &mut Vec<Input>) {
    for tagger in TAGGERS {
        let t = match tagger {
            Tagger::Zuc256 { width } => 8 * width,
            _ => 32,
        };
        for length in [0, 1, 3, t / 8, t / 4 + 1] {
            for bits in edge_bits(length, &[t]) {
                inputs.push(over(rng, Call::Tag(tagger), length, bits));
            }
        }
    }
}

fn recorded_cuts(rng: &mut Rng, inputs: &mut Vec<Input>) {
    let cuts: [&[usize]; 8] =
        [&[0], &[1, 1], &[3, 1], &[4, 0, 4], &[5, 3, 9], &[7, 9], &[15, 1, 1], &[16, 17]];
    for tagger in TAGGERS {
        for cut in cuts {
            let tail = rng.below(6);
            let bits = rng.below(8 * tail + 1);
            let length = cut.iter().sum::<usize>() + tail;
            for bits in [bits, 8 * tail, 8 * tail + 1] {
                let input = over(rng, Call::Tag(tagger), length, bits);
                inputs.push(Input { cuts: cut.to_vec(), ..input });
            }
        }
    }
}

#[cfg(test)]
mod tests {
    use super::*;

    #[test]
    fn a_record_says_its_length() {
        for input in inputs() {
            let line = line(&input);
            let digits = line.chars().filter(|c| c.is_ascii_hexdigit()).count();
            let length = usize::from_str_radix(&line[..4], 16).expect("four digits");
            assert_eq!(digits, 4 + 2 * length);
        }
    }

    /// EIA3 test set 1: the fields in their places.
    #[test]
    fn a_record_by_hand() {
        let mut input = Input::of(Call::Tag(Tagger::Eia3));
        input.data = vec![0];
        input.bits = 1;
        let key = "00".repeat(16);
        let expected = format!(
            "003d 2304 00000000 0000 0010{key} 0000 00 000100 00000001 \
             00 0000 001000000000c8a9595e0000000000000000 00000000"
        );
        assert_eq!(line(&input), expected);
    }
}
