//! SIMD v1.1 digests of bit strings, over the proved library behind `include/simd.h`.
//!
//! The names are those of the C header: [`Hash::open`], [`Hash::feed`], [`Hash::take`],
//! [`Hash::restore`], [`hash`], [`Hmac::open`], [`Hmac::feed`], [`Hmac::take`], [`Hmac::check`],
//! [`hmac`], [`expand`], [`steps`], [`unsteps`], [`compare`], [`tape`], [`page_entry`], [`quote`],
//! [`quote_check`], [`index()`], [`reindex`]. A width is 224, 256, 384 or 512. A message is bytes and a
//! count of bits, at most [`BITS_MAX`]; in a byte the first bit is the highest, and what is past the
//! count, in the last byte used and in the bytes behind it, is ignored. Elsewhere an open hash is called
//! a hashing context, to feed is to update, and to take is to finalize; here the hash stays open. A
//! keyed seal is a message authentication code, its bytes are the tag, and to check a tag is to verify
//! it.
//!
//! ```
//! let digest = simd::hash(256, b"", 0)?;
//! assert_eq!(
//!     digest.to_string(),
//!     "8029e81e7320e13ed9001dc3d8021fec695b7a25cd43ad805260181c35fcaea8"
//! );
//! # Ok::<(), simd::Refusal>(())
//! ```
//!
//! Where all is whole bytes, [`hash_bytes`] and [`Hash::feed_bytes`] count the bits:
//!
//! ```
//! assert_eq!(simd::hash_bytes(256, b"abc")?, simd::hash(256, b"abc", 24)?);
//! # Ok::<(), simd::Refusal>(())
//! ```
//!
//! A keyed seal (HMAC, FIPS 198-1) is made in one call, and checked by an [`Hmac`]:
//!
//! ```
//! let tag = simd::hmac_bytes(256, b"a key", b"a reading")?;
//!
//! let mut keyed = simd::Hmac::open(256, b"a key")?;
//! keyed.feed_bytes(b"a reading")?;
//! assert!(keyed.check(tag.as_bytes()));
//! # Ok::<(), simd::Refusal>(())
//! ```

#![warn(missing_docs)]

mod ffi;
mod index;
mod keyed;
mod page;
mod quote;
mod refusal;

use std::fmt;
use std::io;

pub use index::{index, reindex, Indexed};
pub use keyed::{hmac, hmac_bytes, Hmac, TakenTag};
pub use page::{page_entry, NUMBER_MAX};
pub use quote::{quote, quote_check};
pub use refusal::{Refusal, TapeRefusal};

/// The most bits of a message, 2^64 - 1; of a keyed hash, of its key, and of its message with one
/// block for the key.
pub const BITS_MAX: u64 = u64::MAX;

/// The bytes that a stored form and an index begin with: width and bit length.
const HEAD: usize = 10;
const OLD_HEAD: usize = 6;
const FORM_MAX: usize = 266;
const DIGEST_MAX: usize = 64;
const BLOCK_MAX: usize = 128;
const WORDS_MAX: usize = 256;

fn is_large(width: u16) -> bool {
    width > 256
}

/// The bytes of a block, and of a state.
fn block_len(width: u16) -> usize {
    if is_large(width) {
        128
    } else {
        64
    }
}

/// The bytes of a stored form at one of the four widths, 138 or 266; a keyed form has twice as many.
pub fn form_len(width: u16) -> usize {
    HEAD + 2 * block_len(width)
}

/// The bytes of an old stored form, 134 or 262, whose bit length has 4 bytes in place of 8; an old
/// keyed form has twice as many.
pub fn old_form_len(width: u16) -> usize {
    OLD_HEAD + 2 * block_len(width)
}

/// The bits of so many bytes. Refused: [`Refusal::Total`] where they are more than a count can be.
fn bits_of(len: usize) -> Result<u64, Refusal> {
    (len as u64).checked_mul(8).ok_or(Refusal::Total)
}

/// The same of a whole message at a width, which is refused first.
fn message_bits(width: u16, len: usize) -> Result<u64, Refusal> {
    bits_of(len).or_else(|refusal| Hash::open(width).and(Err(refusal)))
}

/// The bit length in a stored form.
fn length_of(form: &[u8]) -> u64 {
    u64::from_le_bytes(form[2..HEAD].try_into().expect("a length has 8 bytes"))
}

/// A digest.
///
/// Its `Display` and `LowerHex` are its lowercase hexadecimal digits. A precision cuts `Display` to
/// the first digits. The quote that `seal` prints is [`Digest::quote`].
///
/// ```
/// let digest = simd::hash_bytes(224, b"")?;
/// assert_eq!(digest.to_vec(), digest.as_bytes());
/// assert_eq!(digest.to_vec().len(), 28);
/// assert_eq!(format!("{digest}"), format!("{digest:x}"));
/// assert_eq!(format!("{digest:.8}"), "43e1d536");
/// # Ok::<(), simd::Refusal>(())
/// ```
#[derive(Clone, Copy, PartialEq, Eq, Hash)]
pub struct Digest {
    bytes: [u8; DIGEST_MAX],
    len: usize,
}

impl Digest {
    fn new(bytes: [u8; DIGEST_MAX], width: u16) -> Digest {
        Digest {
            bytes,
            len: usize::from(width / 8),
        }
    }

    /// Its bytes, as many as the width has bits, by 8.
    pub fn as_bytes(&self) -> &[u8] {
        &self.bytes[..self.len]
    }

    /// Its bytes, copied.
    pub fn to_vec(&self) -> Vec<u8> {
        self.as_bytes().to_vec()
    }

    /// Its width.
    pub fn width(&self) -> u16 {
        8 * self.len as u16
    }

    /// Its quote, as [`quote()`] makes it and as `seal` prints it.
    ///
    /// ```
    /// let digest = simd::hash_bytes(224, b"")?;
    /// assert_eq!(digest.quote(), "43e1d53656d7b85d30");
    /// assert!(simd::quote_check(digest.quote().as_bytes()));
    /// # Ok::<(), simd::Refusal>(())
    /// ```
    pub fn quote(&self) -> String {
        quote(self.width(), self.as_bytes()).expect("a digest has its width's length")
    }

    fn hex(&self) -> String {
        self.as_bytes()
            .iter()
            .flat_map(|byte| [byte >> 4, byte & 15])
            .map(|digit| char::from(b"0123456789abcdef"[usize::from(digit)]))
            .collect()
    }
}

impl AsRef<[u8]> for Digest {
    fn as_ref(&self) -> &[u8] {
        self.as_bytes()
    }
}

impl fmt::Display for Digest {
    fn fmt(&self, f: &mut fmt::Formatter<'_>) -> fmt::Result {
        f.pad(&self.hex())
    }
}

impl fmt::LowerHex for Digest {
    fn fmt(&self, f: &mut fmt::Formatter<'_>) -> fmt::Result {
        f.pad_integral(true, "0x", &self.hex())
    }
}

impl fmt::Debug for Digest {
    fn fmt(&self, f: &mut fmt::Formatter<'_>) -> fmt::Result {
        write!(f, "Digest({self})")
    }
}

/// An open hash.
///
/// Pieces of any number of bits are fed one after the other:
///
/// ```
/// let mut hash = simd::Hash::open(256)?;
/// hash.feed(&[0b1010_0000], 3)?;
/// hash.feed(&[0b1111_1000], 5)?;
/// assert_eq!(hash.take().digest, simd::hash(256, &[0b1011_1111], 8)?);
/// # Ok::<(), simd::Refusal>(())
/// ```
///
/// What is past the count of a piece leaves no trace:
///
/// ```
/// let mut hash = simd::Hash::open(256)?;
/// let mut same = hash.clone();
/// hash.feed(&[0b1010_0000], 3)?;
/// same.feed(&[0b1011_0101, 0xff], 3)?;
/// assert_eq!(same.store(), hash.store());
/// # Ok::<(), simd::Refusal>(())
/// ```
///
/// Stored and restored, it goes on as before:
///
/// ```
/// let mut hash = simd::Hash::open(512)?;
/// hash.feed(b"a reading", 72)?;
/// let stored = hash.store().to_vec();
/// let restored = simd::Hash::restore(&stored)?;
/// assert_eq!(restored.take(), hash.take());
/// # Ok::<(), simd::Refusal>(())
/// ```
///
/// So does a form that was stored while the length had 4 bytes in place of 8; it is stored again in
/// today's size:
///
/// ```
/// let mut hash = simd::Hash::open(256)?;
/// hash.feed_bytes(b"a read")?;
/// let stored = hash.store();
/// let old = [&stored[..6], &stored[10..]].concat();
///
/// let mut restored = simd::Hash::restore(&old)?;
/// assert_eq!(restored.store(), stored);
/// restored.feed_bytes(b"ing")?;
/// assert_eq!(restored.take().digest, simd::hash_bytes(256, b"a reading")?);
/// # Ok::<(), simd::Refusal>(())
/// ```
///
/// As an [`io::Write`] it takes whole bytes:
///
/// ```
/// let mut hash = simd::Hash::open(384)?;
/// std::io::copy(&mut &b"a long record"[..], &mut hash)?;
/// assert_eq!(hash.take().digest, simd::hash(384, b"a long record", 104)?);
/// # Ok::<(), Box<dyn std::error::Error>>(())
/// ```
#[derive(Clone, PartialEq, Eq)]
pub struct Hash {
    form: [u8; FORM_MAX],
    len: usize,
}

/// What [`Hash::take`] answers.
#[derive(Clone, Copy, Debug, PartialEq, Eq)]
pub struct Taken {
    /// The digest of all bits fed.
    pub digest: Digest,
    /// The blocks compressed for it, 1 or 2.
    pub blocks: u64,
}

/// Writes the form of today's size of a stored form, which may be an old one; answers its length.
fn restored(stored: &[u8], form: &mut [u8]) -> Result<usize, Refusal> {
    // SAFETY: each pointer and length are those of one slice, and nothing overlaps.
    let number =
        unsafe { ffi::simd_restore(stored.as_ptr(), stored.len(), form.as_mut_ptr(), form.len()) };
    Refusal::check(number)?;
    Ok(form_len(u16::from_le_bytes([stored[0], stored[1]])))
}

impl Hash {
    /// Opens a hash. Refused: [`Refusal::Width`].
    pub fn open(width: u16) -> Result<Hash, Refusal> {
        let mut form = [0; FORM_MAX];
        // SAFETY: the pointer and length are those of one array.
        let number = unsafe { ffi::simd_open(width, form.as_mut_ptr(), form.len()) };
        Refusal::check(number)?;
        Ok(Hash {
            form,
            len: form_len(width),
        })
    }

    /// Feeds the first `bits` bits of a piece, and ignores the others; answers how many blocks were
    /// compressed.
    ///
    /// Refused: [`Refusal::Count`], [`Refusal::Total`]. The hash is then unchanged.
    pub fn feed(&mut self, piece: &[u8], bits: u64) -> Result<u64, Refusal> {
        let mut blocks = 0;
        // SAFETY: each pointer and length are those of one slice, and nothing overlaps the form.
        let number = unsafe {
            ffi::simd_feed(
                self.form.as_mut_ptr(),
                self.len,
                piece.as_ptr(),
                piece.len(),
                bits,
                &mut blocks,
            )
        };
        Refusal::check(number)?;
        Ok(blocks)
    }

    /// Feeds whole bytes; answers how many blocks were compressed.
    ///
    /// Refused: [`Refusal::Total`]. The hash is then unchanged.
    pub fn feed_bytes(&mut self, bytes: &[u8]) -> Result<u64, Refusal> {
        self.feed(bytes, bits_of(bytes.len())?)
    }

    /// The digest of all bits fed. The hash stays open.
    pub fn take(&self) -> Taken {
        let (mut bytes, mut blocks) = ([0; DIGEST_MAX], 0);
        // SAFETY: each pointer and length are those of one slice, and nothing overlaps.
        let number = unsafe {
            ffi::simd_take(
                self.form.as_ptr(),
                self.len,
                bytes.as_mut_ptr(),
                bytes.len(),
                &mut blocks,
            )
        };
        Refusal::check(number).expect("a hash holds a legal form");
        Taken {
            digest: Digest::new(bytes, self.width()),
            blocks,
        }
    }

    /// The stored form, [`form_len`] bytes.
    pub fn store(&self) -> &[u8] {
        &self.form[..self.len]
    }

    /// The hash of a stored form; also of an old one, of [`old_form_len`] bytes, which is stored again
    /// in today's size.
    ///
    /// Refused: [`Refusal::Form`] of less than 2 bytes; [`Refusal::Width`], [`Refusal::Form`],
    /// [`Refusal::Tail`].
    pub fn restore(form: &[u8]) -> Result<Hash, Refusal> {
        let mut hash = Hash {
            form: [0; FORM_MAX],
            len: 0,
        };
        hash.len = restored(form, &mut hash.form)?;
        Ok(hash)
    }

    /// The width.
    pub fn width(&self) -> u16 {
        u16::from_le_bytes([self.form[0], self.form[1]])
    }

    /// The count of bits fed.
    pub fn bits(&self) -> u64 {
        length_of(&self.form)
    }
}

impl fmt::Debug for Hash {
    fn fmt(&self, f: &mut fmt::Formatter<'_>) -> fmt::Result {
        f.debug_struct("Hash")
            .field("width", &self.width())
            .field("bits", &self.bits())
            .finish_non_exhaustive()
    }
}

/// Feeds whole bytes. A write that would pass [`BITS_MAX`] is refused as a whole, and the error
/// holds [`Refusal::Total`].
impl io::Write for Hash {
    fn write(&mut self, bytes: &[u8]) -> io::Result<usize> {
        self.feed_bytes(bytes)?;
        Ok(bytes.len())
    }

    fn flush(&mut self) -> io::Result<()> {
        Ok(())
    }
}

/// The digest of the first `bits` bits of a message; the others are ignored.
///
/// Refused: [`Refusal::Width`], [`Refusal::Count`].
///
/// ```
/// use simd::{hash, Refusal};
///
/// assert_eq!(hash(512, &[0xff, 0x80], 9)?.as_ref().len(), 64);
/// assert_eq!(hash(512, &[0xff, 0xc0], 9)?, hash(512, &[0xff, 0x80], 9)?);
/// assert_eq!(hash(512, &[0xff], 9), Err(Refusal::Count));
/// assert_eq!(hash(160, &[], 0), Err(Refusal::Width));
/// # Ok::<(), Refusal>(())
/// ```
pub fn hash(width: u16, message: &[u8], bits: u64) -> Result<Digest, Refusal> {
    let mut bytes = [0; DIGEST_MAX];
    // SAFETY: each pointer and length are those of one slice, and nothing overlaps.
    let number = unsafe {
        ffi::simd_hash(
            width,
            message.as_ptr(),
            message.len(),
            bits,
            bytes.as_mut_ptr(),
            bytes.len(),
        )
    };
    Refusal::check(number)?;
    Ok(Digest::new(bytes, width))
}

/// The digest of a message of whole bytes.
///
/// Refused: [`Refusal::Width`], [`Refusal::Total`].
pub fn hash_bytes(width: u16, message: &[u8]) -> Result<Digest, Refusal> {
    hash(width, message, message_bits(width, message.len())?)
}

/// The expanded message of one block, 32 rows of 4 or 8 words, row after row; `last` tells the
/// length block.
///
/// Refused: [`Refusal::Width`], [`Refusal::Block`].
///
/// ```
/// let words = simd::expand(256, false, &[0; 64])?;
/// assert_eq!(words.len(), 128);
/// # Ok::<(), simd::Refusal>(())
/// ```
pub fn expand(width: u16, last: bool, block: &[u8]) -> Result<Vec<u32>, Refusal> {
    let mut words = vec![0; WORDS_MAX];
    // SAFETY: each pointer and length are those of one slice, and nothing overlaps.
    let number = unsafe {
        ffi::simd_expand(
            width,
            last,
            block.as_ptr(),
            block.len(),
            words.as_mut_ptr(),
            words.len(),
        )
    };
    Refusal::check(number)?;
    words.truncate(2 * block_len(width));
    Ok(words)
}

/// The state after the 32 steps, from the one already xored with the block.
///
/// Refused: [`Refusal::Width`], [`Refusal::Block`].
///
/// ```
/// let (state, block) = ([7; 64], [9; 64]);
/// let end = simd::steps(224, false, &state, &block)?;
/// assert_eq!(simd::unsteps(224, false, &end, &block)?, state);
/// # Ok::<(), simd::Refusal>(())
/// ```
pub fn steps(width: u16, last: bool, state: &[u8], block: &[u8]) -> Result<Vec<u8>, Refusal> {
    stepping(ffi::simd_steps, width, last, state, block)
}

/// The inverse of [`steps`]: the state before the 32 steps, from the one after them.
///
/// Refused: [`Refusal::Width`], [`Refusal::Block`].
pub fn unsteps(width: u16, last: bool, state: &[u8], block: &[u8]) -> Result<Vec<u8>, Refusal> {
    stepping(ffi::simd_unsteps, width, last, state, block)
}

fn stepping(
    call: ffi::Stepping,
    width: u16,
    last: bool,
    state: &[u8],
    block: &[u8],
) -> Result<Vec<u8>, Refusal> {
    let mut out = vec![0; BLOCK_MAX];
    // SAFETY: each pointer and length are those of one slice, and nothing overlaps the output.
    let number = unsafe {
        call(
            width,
            last,
            state.as_ptr(),
            state.len(),
            block.as_ptr(),
            block.len(),
            out.as_mut_ptr(),
            out.len(),
        )
    };
    Refusal::check(number)?;
    out.truncate(block_len(width));
    Ok(out)
}

/// What [`compare`] answers.
#[derive(Clone, Copy, Debug, PartialEq, Eq)]
pub enum Verdict {
    /// Lengths and bits are equal.
    Same,
    /// The messages differ, and so do their final states.
    Apart,
    /// The messages differ and their final states are equal. The number is that of the block that
    /// shows it, counted back from the length block, which is 0: the smallest at which the state
    /// before the block or the block itself differs.
    Meet(u64),
}

/// Compares two messages, each bytes and a count of bits, under one width. What is past a count is
/// ignored.
///
/// Refused: [`Refusal::Width`]; then, for the first message and after it for the second,
/// [`Refusal::Count`].
///
/// ```
/// use simd::{compare, Verdict};
///
/// assert_eq!(compare(256, b"record", 48, b"record!", 48)?, Verdict::Same);
/// assert_eq!(compare(256, b"record", 43, b"recorg", 43)?, Verdict::Same);
/// assert_eq!(compare(256, b"record", 48, b"record!", 56)?, Verdict::Apart);
/// # Ok::<(), simd::Refusal>(())
/// ```
pub fn compare(
    width: u16,
    a: &[u8],
    a_bits: u64,
    b: &[u8],
    b_bits: u64,
) -> Result<Verdict, Refusal> {
    let (mut verdict, mut block) = (0, 0);
    // SAFETY: each pointer and length are those of one slice; a and b are only read.
    let number = unsafe {
        ffi::simd_compare(
            width,
            a.as_ptr(),
            a.len(),
            a_bits,
            b.as_ptr(),
            b.len(),
            b_bits,
            &mut verdict,
            &mut block,
        )
    };
    Refusal::check(number)?;
    Ok(match verdict {
        0 => Verdict::Same,
        1 => Verdict::Apart,
        _ => Verdict::Meet(block),
    })
}

/// Runs a tape of commands; digests are written to `out` straight after each other. Answers how
/// many there are. A refusal tells the place and how many digests were written before it. The bits of
/// a PART past its count are ignored.
///
/// Refused, of each command in this order: [`Refusal::Command`], [`Refusal::End`],
/// [`Refusal::Order`]; [`Refusal::Width`] of OPEN; [`Refusal::Total`] of FULL and PART;
/// [`Refusal::Output`] of TAKE, where less of `out` is left than the digest needs.
///
/// ```
/// let mut out = [0; 32];
/// assert_eq!(simd::tape(&[0x01, 0x00, 0x01, 0x04, 0x05], &mut out), Ok(1));
/// assert_eq!(out, simd::hash(256, b"", 0)?.as_ref());
///
/// let refused = simd::tape(&[0x01, 0x00, 0x01, 0x04, 0x04], &mut out).unwrap_err();
/// assert_eq!((refused.refusal, refused.place, refused.count), (simd::Refusal::Order, 4, 1));
/// # Ok::<(), simd::Refusal>(())
/// ```
pub fn tape(tape: &[u8], out: &mut [u8]) -> Result<u64, TapeRefusal> {
    let (mut count, mut place) = (0, 0);
    // SAFETY: each pointer and length are those of one slice, and nothing overlaps the output.
    let number = unsafe {
        ffi::simd_tape(
            tape.as_ptr(),
            tape.len(),
            out.as_mut_ptr(),
            out.len(),
            &mut count,
            &mut place,
        )
    };
    match Refusal::check(number) {
        Ok(()) => Ok(count),
        Err(refusal) => Err(TapeRefusal {
            refusal,
            place,
            count,
        }),
    }
}

#[cfg(test)]
mod tests {
    use super::*;

    /// No machine has a slice of 2^61 bytes: what is refused of one is tried by its length.
    #[test]
    fn more_bits_than_a_count_can_be() {
        let most = (1 << 61) - 1;
        assert_eq!(bits_of(most), Ok(BITS_MAX - 7));
        assert_eq!(message_bits(256, most), Ok(BITS_MAX - 7));
        for len in [most + 1, most + 2, 1 << 62, usize::MAX] {
            assert_eq!(bits_of(len), Err(Refusal::Total));
            for width in [224, 256, 384, 512] {
                assert_eq!(message_bits(width, len), Err(Refusal::Total));
                assert_eq!(message_bits(width + 1, len), Err(Refusal::Width));
            }
        }
    }
}
