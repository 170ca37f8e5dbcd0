//! One frame (request 2026-01), written or read through the C interface and through the Rust
//! package, and by the model of [`seal`](crate::seal): numbers, fields, and every byte in and
//! around the frame.

use std::fmt;

use yegetmur::frame::{self, Fields};
use yegetmur::{capi, Refusal};

use crate::check::{same, same_list, Verdict};
use crate::hex::hex;
use crate::report::Trial;
use crate::seal::{self, Contents, Keys, BODY};
use crate::shrink::Shrinks;

/// Bytes around the frame that no call may touch, and what stands there.
const MARGIN: usize = 16;
const DIRT: u8 = 0xa5;

#[derive(Clone, Copy, PartialEq, Debug)]
pub enum Call {
    /// The body is plain, and dirt stands where the writer is to fill in.
    Write,
    /// The body is the masked one, and the tag is right for it unless it is altered.
    Read,
}

#[derive(Clone)]
pub struct Frame {
    pub call: Call,
    pub keys: Keys,
    pub contents: Contents,
    pub body: Vec<u8>,
    /// How many bytes more are lent than the frame has, or fewer.
    pub tail: isize,
    /// Bytes of a frame that is read, and what each is altered by.
    pub altered: Vec<(usize, u8)>,
}

impl Trial for Frame {
    fn verdict(&self) -> Verdict {
        match self.call {
            Call::Write => self.written(),
            Call::Read => self.read(),
        }
    }
}

impl Frame {
    /// What is lent.
    pub fn lent(&self) -> Vec<u8> {
        let mut bytes = match self.call {
            Call::Write => [&[DIRT; BODY], &self.body[..], &[DIRT; 4]].concat(),
            Call::Read => self.sealed(),
        };
        for &(place, by) in &self.altered {
            if let Some(byte) = bytes.get_mut(place) {
                *byte ^= by;
            }
        }
        bytes.resize(bytes.len().saturating_add_signed(self.tail), DIRT);
        bytes
    }

    fn sealed(&self) -> Vec<u8> {
        let ik = self.keys.ik[..].try_into().unwrap_or(&[0; 16]);
        let tag = seal::tag(ik, self.contents, &self.body);
        let head = seal::head(self.contents, self.body.len());
        [&head[..], &self.body, &tag.to_be_bytes()].concat()
    }

    fn written(&self) -> Verdict {
        let before = self.lent();
        let (number, expected) = seal::written(&self.keys, self.contents, &before);
        let Keys { ck, ik } = &self.keys;
        let Contents { count, bearer, direction, bits } = self.contents;
        let write =
            |frame: &mut [u8]| capi::zuc_frame_write(ck, ik, count, bearer, direction, bits, frame);
        let frame = in_memory(&before, write, |answer| same("number of a write", number, answer))?;
        same_list("frame written", &expected, &frame)?;

        let fields = Fields { count, bearer, direction, bits };
        let mut other = before.clone();
        let answer = frame::seal(ck, ik, fields, &mut other);
        same("number of seal", number, answer.err().map_or(0, Refusal::number))?;
        same_list("frame sealed by the package", &expected, &other)?;
        if number == 0 {
            let (body, end) = (&before[BODY..before.len() - 4], before.len() - 4);
            let opened = frame::open(ck, ik, &mut other);
            same_fields("fields of what was written", Some(self.contents), opened)?;
            same_list("body of what was written", body, &other[BODY..end])?;
        }
        Ok(())
    }

    fn read(&self) -> Verdict {
        let before = self.lent();
        let (number, contents, expected) = seal::read(&self.keys, &before);
        if number == 0 && self.altered.iter().any(|&(place, by)| place < before.len() && by != 0) {
            return Err("an altered frame is accepted by the model".into());
        }
        let Keys { ck, ik } = &self.keys;
        let mut fields = [!0; 4];
        let read = |frame: &mut [u8]| capi::zuc_frame_read(ck, ik, frame, &mut fields);
        let frame = in_memory(&before, read, |answer| same("number of a read", number, answer))?;
        same_list("frame read", &expected, &frame)?;
        let told = contents.map_or([0; 4], |told| {
            [told.count, told.bearer.into(), told.direction.into(), told.bits]
        });
        same_list("fields", &told, &fields)?;

        let mut other = before.clone();
        let answer = frame::open(ck, ik, &mut other);
        same("number of open", number, answer.err().map_or(0, Refusal::number))?;
        same_fields("fields by the package", contents, answer)?;
        same_list("frame opened by the package", &expected, &other)?;
        if let Ok(fields) = answer {
            let again = frame::seal(ck, ik, fields, &mut other);
            same("number of what was read, sealed", 0, again.err().map_or(0, Refusal::number))?;
            same_list("frame that was read, sealed again", &before, &other)?;
        }
        Ok(())
    }
}

/// Lends the frame, at any place within a word; what is around it must stay. Answers the frame
/// after the call.
fn in_memory(
    frame: &[u8],
    call: impl FnOnce(&mut [u8]) -> u32,
    number: impl FnOnce(u32) -> Verdict,
) -> Result<Vec<u8>, String> {
    let front = MARGIN + frame.len() % 8;
    let end = front + frame.len();
    let mut memory = vec![DIRT; end + MARGIN];
    memory[front..end].copy_from_slice(frame);
    number(call(&mut memory[front..end]))?;
    same_list("bytes before the frame", &vec![DIRT; front], &memory[..front])?;
    same_list("bytes after the frame", &[DIRT; MARGIN], &memory[end..])?;
    Ok(memory[front..end].to_vec())
}

fn same_fields(what: &str, expected: Option<Contents>, answer: Result<Fields, Refusal>) -> Verdict {
    let told = answer.ok().map(|fields| {
        let Fields { count, bearer, direction, bits } = fields;
        Contents { count, bearer, direction, bits }
    });
    if told == expected {
        return Ok(());
    }
    Err(format!("{what}: expected {expected:?}, the port has {told:?}"))
}

impl Shrinks for Frame {
    fn size(&self) -> (usize, usize, usize, u64) {
        let Contents { count, bearer, direction, bits } = self.contents;
        let fields = count.count_ones() + u32::from(bearer) + u32::from(direction);
        let bytes = [&self.keys.ck, &self.keys.ik, &self.body];
        let ones = bytes.iter().flat_map(|list| list.iter()).map(|byte| byte.count_ones());
        let keys = self.keys.ck.len().abs_diff(16) + self.keys.ik.len().abs_diff(16);
        (
            self.body.len(),
            self.altered.len() + self.tail.unsigned_abs() + keys,
            bits as usize,
            u64::from(ones.sum::<u32>() + fields),
        )
    }

    fn steps(&self) -> Vec<Self> {
        let mut steps = Vec::new();
        let mut push = |change: &dyn Fn(&mut Self)| {
            let mut next = self.clone();
            change(&mut next);
            steps.push(next);
        };
        for part in [2, 16, 256, usize::MAX] {
            push(&|next| {
                next.keep_bytes(next.body.len().saturating_sub((next.body.len() / part).max(1)))
            });
        }
        push(&|next| next.keys.ck = vec![0; 16]);
        push(&|next| next.keys.ik = vec![1; 16]);
        push(&|next| next.body.fill(0));
        push(&|next| next.tail = 0);
        push(&|next| next.tail -= next.tail.signum());
        push(&|next| next.contents.count = 0);
        push(&|next| next.contents.bearer = 0);
        push(&|next| next.contents.direction = 0);
        // by halves first: one by one it would take half a million steps
        push(&|next| next.contents.bits /= 2);
        push(&|next| next.contents.bits = next.contents.bits.saturating_sub(1));
        for place in 0..self.altered.len() {
            push(&|next| _ = next.altered.remove(place));
        }
        steps
    }
}

impl Frame {
    /// Drops bytes off the end of the body, and their bits; places after them move along.
    fn keep_bytes(&mut self, bytes: usize) {
        let end = BODY + self.body.len();
        let dropped = self.body.len() - bytes;
        self.body.truncate(bytes);
        self.contents.bits = self.contents.bits.saturating_sub(8 * dropped as u32);
        for (place, _) in &mut self.altered {
            if *place >= end {
                *place -= dropped;
            }
        }
    }
}

impl fmt::Display for Frame {
    fn fmt(&self, f: &mut fmt::Formatter<'_>) -> fmt::Result {
        let Self { call, keys, contents, altered, .. } = self;
        let Contents { count, bearer, direction, bits } = contents;
        let (ck, ik, lent) = (hex(&keys.ck), hex(&keys.ik), self.lent());
        write!(f, "{call:?} count={count:#x} bearer={bearer} direction={direction}")?;
        write!(f, " bits={bits} ck={ck} ik={ik}")?;
        write!(f, " frame={} ({} bytes) altered={altered:x?}", hex(&lent), lent.len())
    }
}
