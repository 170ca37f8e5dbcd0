//! Sealed frames as a user of the package meets them: the worked frames of docs/FRAME.md,
//! every bit length of short bodies, every refusal with what it leaves, and every bit of a
//! frame turned.

use yegetmur::eia3::Eia3Mac;
use yegetmur::frame::{open, seal, Fields, BESIDE, HEAD, LONGEST};
use yegetmur::Refusal;

const DOCUMENT: &str = include_str!("../../../docs/FRAME.md");

const CK: [u8; 16] = [0x3c; 16];
const IK: [u8; 16] = [0xa5; 16];

fn hex(digits: &str) -> Vec<u8> {
    let digits: Vec<u8> = digits.bytes().filter(u8::is_ascii_hexdigit).collect();
    let pair = |pair: &[u8]| u8::from_str_radix(std::str::from_utf8(pair).unwrap(), 16).unwrap();
    digits.chunks(2).map(pair).collect()
}

/// A frame as it is lent to be sealed: a body between bytes that are to be filled in.
fn lent(body: &[u8]) -> Vec<u8> {
    [&[0xee; HEAD], body, &[0xee; BESIDE - HEAD]].concat()
}

/// A body that fits its bit length.
fn body_of(bits: u32) -> Vec<u8> {
    let bytes = u8::try_from(bits.div_ceil(8)).unwrap();
    let mut body: Vec<u8> = (1..=bytes).map(|i| i.wrapping_mul(0x9d)).collect();
    if let (Some(last), 1..) = (body.last_mut(), bits % 8) {
        *last &= 0xff << (8 - bits % 8);
    }
    body
}

fn fields(bits: u32) -> Fields {
    Fields {
        count: 0x0102_0304,
        bearer: 31,
        direction: 1,
        bits,
    }
}

/// What stands after `name: ` on a line of its own, in a block of the document.
fn told<'a>(block: &'a str, name: &str) -> &'a str {
    let mut lines = block.lines().map(str::trim_start);
    let told = lines.find_map(|line| line.strip_prefix(name)?.strip_prefix(": "));
    told.unwrap_or_else(|| panic!("no {name} in {block}"))
}

#[test]
fn worked_frames() {
    let (ck, ik) = (hex(told(DOCUMENT, "CK")), hex(told(DOCUMENT, "IK")));
    let mut tried = 0;
    for block in DOCUMENT.split("COUNT: ").skip(1) {
        let block = format!("COUNT: {block}");
        let number = |name: &str| told(&block, name).parse::<u32>().unwrap();
        let fields = Fields {
            count: u32::from_str_radix(told(&block, "COUNT"), 16).unwrap(),
            bearer: u8::try_from(number("bearer")).unwrap(),
            direction: u8::try_from(number("direction")).unwrap(),
            bits: number("L"),
        };
        let (body, sealed) = (hex(told(&block, "body")), hex(told(&block, "frame")));
        let mut frame = lent(&body);
        assert_eq!(seal(&ck, &ik, fields, &mut frame), Ok(()));
        assert_eq!(frame, sealed);
        assert_eq!(open(&ck, &ik, &mut frame), Ok(fields));
        let (head, tag) = (&sealed[..HEAD], &sealed[sealed.len() - 4..]);
        assert_eq!(frame, [head, &body, tag].concat());
        tried += 1;
    }
    assert_eq!(tried, 3);
}

#[test]
fn every_bit_length() {
    for bits in 0..=320 {
        let (body, fields) = (body_of(bits), fields(bits));
        let mut frame = lent(&body);
        assert_eq!(seal(&CK, &IK, fields, &mut frame), Ok(()), "{bits} bits");
        let sealed = frame.clone();
        let tag = Eia3Mac::compute(
            fields.count,
            31,
            1,
            &IK,
            &frame[HEAD..HEAD + body.len()],
            bits as usize,
        );
        assert_eq!(frame[frame.len() - 4..], tag.to_be_bytes());
        assert_eq!(open(&CK, &IK, &mut frame), Ok(fields), "{bits} bits");
        assert_eq!(frame[HEAD..HEAD + body.len()], body);
        assert_eq!(frame[..HEAD], sealed[..HEAD]);
        assert_eq!(frame[HEAD + body.len()..], sealed[HEAD + body.len()..]);
    }
}

#[test]
fn the_longest_frame() {
    let bits = 8 * 65521;
    let plain = vec![0x55; LONGEST + 1];
    let mut frame = plain.clone();
    let too_long = seal(&CK, &IK, fields(bits + 8), &mut frame);
    assert_eq!(too_long, Err(Refusal::Length));
    assert_eq!(frame, plain);
    let longest = &mut frame[..LONGEST];
    assert_eq!(seal(&CK, &IK, fields(bits), longest), Ok(()));
    assert_eq!(longest[..3], [1, 0xff, 0xff]);
    let sealed = frame.clone();
    // one byte more, whatever its length field says
    for length in 0..=u16::MAX {
        frame[1..3].copy_from_slice(&length.to_be_bytes());
        assert_eq!(open(&CK, &IK, &mut frame), Err(Refusal::Length));
    }
    assert_eq!(frame, sealed);
    assert_eq!(open(&CK, &IK, &mut frame[..LONGEST]), Ok(fields(bits)));
    assert_eq!(frame[HEAD..LONGEST - 4], plain[HEAD..LONGEST - 4]);
}

/// A frame to be sealed, with each thing wrong that a bit of `wrong` stands for.
#[test]
fn refused_seals_in_order() {
    let order = [
        Refusal::Key,
        Refusal::Key,
        Refusal::Frame,
        Refusal::Field,
        Refusal::Field,
        Refusal::Body,
        Refusal::Body,
    ];
    for wrong in 1..1_u32 << order.len() {
        let has = |place: u32| wrong >> place & 1 == 1;
        let mut frame = lent(&[0xa5, if has(6) { 0x5c } else { 0x58 }]);
        if has(2) {
            frame.truncate(16);
        }
        let (before, ck, ik) = (frame.clone(), [1; 17], [2; 17]);
        let given = Fields {
            count: 5,
            bearer: if has(3) { 32 } else { 31 },
            direction: if has(4) { 2 } else { 0 },
            bits: if has(5) { 21 } else { 13 },
        };
        let (ck, ik) = (
            &ck[..16 + usize::from(has(0))],
            &ik[..16 - usize::from(has(1))],
        );
        let answer = seal(ck, ik, given, &mut frame);
        let first = order[wrong.trailing_zeros() as usize];
        assert_eq!((answer, frame), (Err(first), before), "{wrong:#b}");
    }
}

/// The same of a frame to be opened; its tag is right unless that is what is wrong.
#[test]
fn refused_opens_in_order() {
    let order = [
        Refusal::Key,
        Refusal::Key,
        Refusal::Frame,
        Refusal::Length,
        Refusal::Field,
        Refusal::Field,
        Refusal::Body,
        Refusal::Body,
        Refusal::Tag,
    ];
    for wrong in 1..1_u32 << order.len() {
        let has = |place: u32| wrong >> place & 1 == 1;
        let either = |place, wrong: u8, right: u8| if has(place) { wrong } else { right };
        let (bearer, direction) = (either(4, 35, 3), either(5, 128, 0));
        let (bits, body) = (either(6, 8, 13), [0xfe, either(7, 0xe1, 0xe0)]);
        let tag = Eia3Mac::compute(5, bearer, direction, &IK, &body, bits.into());
        let tag = tag ^ u32::from(has(8)) << 31;
        let head = [either(2, 0, 1), 0, either(3, 17, 16), 0, 0, 0, 5];
        let rest = [bearer, direction, 0, 0, 0, bits, body[0], body[1]];
        let mut frame = [&head[..], &rest, &tag.to_be_bytes()].concat();
        let before = frame.clone();
        let (ck, ik) = (
            &CK[..16 - usize::from(has(0))],
            &IK[..16 - usize::from(has(1))],
        );
        let first = order[wrong.trailing_zeros() as usize];
        assert_eq!(open(ck, ik, &mut frame), Err(first), "{wrong:#b}");
        assert_eq!(frame, before);
    }
}

#[test]
fn every_bit_turned() {
    for bits in [0, 13, 16, 100] {
        let mut frame = lent(&body_of(bits));
        assert_eq!(seal(&CK, &IK, fields(bits), &mut frame), Ok(()));
        for place in 0..8 * frame.len() {
            let mut turned = frame.clone();
            turned[place / 8] ^= 0x80 >> (place % 8);
            let before = turned.clone();
            let refusal = open(&CK, &IK, &mut turned).unwrap_err();
            let possible: &[Refusal] = match place / 8 {
                0 => &[Refusal::Frame],
                1 | 2 => &[Refusal::Length],
                7 | 8 => &[Refusal::Field, Refusal::Tag],
                9..13 => &[Refusal::Body, Refusal::Tag],
                at if at + 5 == frame.len() => &[Refusal::Body, Refusal::Tag],
                _ => &[Refusal::Tag],
            };
            assert!(possible.contains(&refusal), "bit {place}: {refusal:?}");
            assert_eq!(turned, before);
        }
    }
}

/// Any bytes may be opened, and keys of any length given: there is an answer.
#[test]
fn no_input_panics() {
    let mut bytes: Vec<u8> = (0..=u8::MAX).cycle().take(4000).collect();
    for n in 0..40 {
        for from in 0..300 {
            assert!(open(&CK, &IK, &mut bytes[from..from + n]).is_err());
            let keys = (&CK[..n.min(16)], &IK[..(n + 3).min(16)]);
            let any = Fields {
                count: u32::MAX,
                bearer: 255,
                direction: 255,
                bits: u32::MAX,
            };
            assert!(seal(keys.0, keys.1, any, &mut bytes[from..from + n]).is_err());
        }
    }
    assert_eq!(
        seal(&[], &[], Fields::default(), &mut []),
        Err(Refusal::Key)
    );
    assert_eq!(open(&CK, &IK, &mut []), Err(Refusal::Frame));
}
