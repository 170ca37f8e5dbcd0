//! A guard, so that no COUNT passes twice under one key.

use crate::capi::{self, Link};
use crate::refusal::Refusal;

/// A guard over a table of links that the caller lends, one for each key, bearer
/// and direction: two blocks with one COUNT under one key would share a keystream.
///
/// Over any calls on a table that began with fresh links ([`Link::default`]), a
/// COUNT is accepted exactly if the link is there, the COUNT is not more than 63
/// below the highest accepted on that link since it was last re-keyed (0 if none
/// was), and it was not accepted there since. A call alters its own link alone.
/// COUNT does not wrap: after [`u32::MAX`] a link must be re-keyed.
///
/// A received block has its tag checked first, then the guard is asked, and only
/// then is the body used:
///
/// ```
/// use yegetmur::eea3::try_eea3_xor_clean;
/// use yegetmur::eia3::Eia3Mac;
/// use yegetmur::{Guard, Link, Refusal};
///
/// struct Block {
///     count: u32,
///     tag: u32,
///     body: Vec<u8>, // masked
/// }
///
/// #[derive(Debug, PartialEq)]
/// enum Refused {
///     Tag,
///     Other(Refusal),
/// }
///
/// impl From<Refusal> for Refused {
///     fn from(refusal: Refusal) -> Self {
///         Self::Other(refusal)
///     }
/// }
///
/// /// The plain body, or why there is none.
/// fn receive(guard: &mut Guard, at: usize, mut block: Block) -> Result<Vec<u8>, Refused> {
///     let (ck, ik, bearer, direction) = (&[1; 16], &[2; 16], 3, 0); // of this link
///     let bits = 8 * block.body.len();
///     // 1. The tag. Asked before it, the guard would believe a forged COUNT: the
///     //    window would move, and good blocks would be refused.
///     if Eia3Mac::try_compute(block.count, bearer, direction, ik, &block.body, bits)? != block.tag {
///         return Err(Refused::Tag);
///     }
///     // 2. The guard. A block that comes twice stops here, before it is used.
///     guard.accept(at, block.count)?;
///     // 3. The body. Its COUNT is spent now, whatever becomes of it.
///     try_eea3_xor_clean(block.count, bearer, direction, ck, &mut block.body, bits)?;
///     Ok(block.body)
/// }
///
/// # fn sent(count: u32, text: &[u8]) -> Block {
/// #     let mut body = text.to_vec();
/// #     try_eea3_xor_clean(count, 3, 0, &[1; 16], &mut body, 8 * text.len()).unwrap();
/// #     let tag = Eia3Mac::try_compute(count, 3, 0, &[2; 16], &body, 8 * text.len()).unwrap();
/// #     Block { count, tag, body }
/// # }
/// let mut links = [Link::default(); 2];
/// let mut guard = Guard::new(&mut links);
/// assert_eq!(receive(&mut guard, 1, sent(1000, b"a reading")).unwrap(), b"a reading");
/// let twice = receive(&mut guard, 1, sent(1000, b"a reading"));
/// assert_eq!(twice, Err(Refused::Other(Refusal::Reuse)));
///
/// let forged = Block { count: u32::MAX, ..sent(1001, b"a reading") };
/// assert_eq!(receive(&mut guard, 1, forged), Err(Refused::Tag));
/// assert_eq!(receive(&mut guard, 1, sent(999, b"a late one")).unwrap(), b"a late one");
/// ```
#[derive(Debug)]
pub struct Guard<'a> {
    links: &'a mut [Link],
}

impl<'a> Guard<'a> {
    /// A guard over `links`, as they are.
    #[must_use]
    pub fn new(links: &'a mut [Link]) -> Self {
        Self { links }
    }

    /// Asks whether `count` may pass on the link at `at`, and if so notes there that
    /// it has.
    ///
    /// # Errors
    /// [`Refusal::Link`]: `at` is past the table. [`Refusal::Age`]: `count` is more
    /// than 63 below the link's highest. [`Refusal::Reuse`]: it was accepted before.
    /// They are checked in this order, and every link is then as it was.
    pub fn accept(&mut self, at: usize, count: u32) -> Result<(), Refusal> {
        Refusal::check(capi::zuc_guard_accept(self.links, at, count))
    }

    /// Makes the link at `at` fresh again, for a new key: under the old one every
    /// COUNT would pass once more.
    ///
    /// # Errors
    /// [`Refusal::Link`]: `at` is past the table; every link is then as it was.
    pub fn rekey(&mut self, at: usize) -> Result<(), Refusal> {
        Refusal::check(capi::zuc_guard_rekey(self.links, at))
    }

    /// The links as they are now.
    #[must_use]
    pub fn links(&self) -> &[Link] {
        self.links
    }
}
