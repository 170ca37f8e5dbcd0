//! Sealed frames, which another vendor can read (`docs/FRAME.md` has every byte): fields,
//! a body masked by 128-EEA3 in clean mode, and the 128-EIA3 tag of the masked body.
//!
//! Both calls are lent the whole frame and work in it. The plain body stands at byte
//! [`HEAD`], and [`BESIDE`] bytes are not the body's.
//!
//! The two keys must differ: at direction 0 EEA3 and EIA3 make the same IV, so that one
//! key for both would mask and tag with one keystream. No refusal tells. And a frame that
//! comes twice is opened twice: a [`Guard`](crate::Guard) is to be asked before the body is
//! used.
//!
//! ```
//! use yegetmur::frame::{open, seal, Fields, BESIDE, HEAD};
//! use yegetmur::Refusal;
//!
//! let (ck, ik) = ([1; 16], [2; 16]);
//! let fields = Fields { count: 1000, bearer: 7, direction: 1, bits: 64 };
//! let mut frame = [0; 8 + BESIDE];
//! frame[HEAD..HEAD + 8].copy_from_slice(b"register");
//! seal(&ck, &ik, fields, &mut frame)?;
//! assert_ne!(&frame[HEAD..HEAD + 8], b"register"); // masked
//!
//! // one bit of the last byte, which is the tag's
//! let mut forged = frame;
//! forged[8 + BESIDE - 1] ^= 1;
//! let received = forged;
//! assert_eq!(open(&ck, &ik, &mut forged), Err(Refusal::Tag));
//! assert_eq!(forged, received); // a refusal alters nothing: its body is still masked
//!
//! assert_eq!(open(&ck, &ik, &mut frame)?, fields);
//! assert_eq!(&frame[HEAD..HEAD + 8], b"register");
//! # Ok::<(), Refusal>(())
//! ```

use crate::capi;
use crate::refusal::Refusal;

/// Bytes before the body.
pub const HEAD: usize = 13;

/// Bytes beside the body: those before it, and the four of the tag.
pub const BESIDE: usize = 17;

/// Bytes of the longest frame. Its body has 65521.
pub const LONGEST: usize = 65538;

/// What a frame carries beside its body.
#[derive(Clone, Copy, Debug, Default, PartialEq, Eq, Hash)]
pub struct Fields {
    /// COUNT, which no two frames of one bearer and direction may share under one key.
    pub count: u32,
    /// The bearer, 0 to 31.
    pub bearer: u8,
    /// The direction, 0 or 1.
    pub direction: u8,
    /// The bit length of the body: its bytes are this many bits, rounded up.
    pub bits: u32,
}

/// Seals the plain body that stands at byte [`HEAD`] of `frame`: it is masked there under
/// `ck`, tagged under `ik`, and every other byte is filled in, whatever stood there.
///
/// # Errors
/// [`Refusal::Key`]: a key is not 16 bytes. [`Refusal::Frame`]: `frame` is below [`BESIDE`]
/// bytes. [`Refusal::Length`]: it is above [`LONGEST`]. [`Refusal::Field`]: the bearer is
/// above 31 or the direction above 1. [`Refusal::Body`]: the body has not the bytes of
/// `fields.bits`, or a bit past them is set.
/// They are checked in this order, and `frame` is then as it came.
pub fn seal(ck: &[u8], ik: &[u8], fields: Fields, frame: &mut [u8]) -> Result<(), Refusal> {
    let Fields {
        count,
        bearer,
        direction,
        bits,
    } = fields;
    Refusal::check(capi::zuc_frame_write(
        ck, ik, count, bearer, direction, bits, frame,
    ))
}

/// Opens a frame: checks it, its tag at the last, and then unmasks the body, which stands at
/// byte [`HEAD`]. No other byte is touched.
///
/// # Errors
/// [`Refusal::Key`]: a key is not 16 bytes. [`Refusal::Frame`]: `frame` is below [`BESIDE`]
/// bytes, or its version is not 1. [`Refusal::Length`]: it says another length than it has,
/// as every one above [`LONGEST`] does. [`Refusal::Field`]: the bearer is above 31 or the
/// direction above 1. [`Refusal::Body`]: the body has not the bytes of its bit length, or a
/// bit past them is set in the masked body. [`Refusal::Tag`]: the tag is wrong.
/// They are checked in this order, and `frame` is then as it came, its body masked.
pub fn open(ck: &[u8], ik: &[u8], frame: &mut [u8]) -> Result<Fields, Refusal> {
    let mut fields = [0; 4];
    Refusal::check(capi::zuc_frame_read(ck, ik, frame, &mut fields))?;
    let [count, bearer, direction, bits] = fields;
    // an accepted frame has bearer and direction in a byte each
    let low_byte = |number: u32| number.to_le_bytes()[0];
    Ok(Fields {
        count,
        bearer: low_byte(bearer),
        direction: low_byte(direction),
        bits,
    })
}
