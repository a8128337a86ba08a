use std::fmt;
use std::io;
use std::ptr;
use std::sync::atomic;

use crate::{
    bits_of, block_len, ffi, form_len, length_of, message_bits, restored, Digest, Refusal,
    DIGEST_MAX, FORM_MAX,
};

const HMAC_FORM_MAX: usize = 2 * FORM_MAX;

/// A keyed hash: HMAC of FIPS 198-1 over the digest of its width.
///
/// A key is 0 to 2,305,843,009,213,693,951 whole bytes. Pieces of the message are fed as to a
/// [`Hash`](crate::Hash):
///
/// ```
/// let mut keyed = simd::Hmac::open(256, b"a key")?;
/// keyed.feed_bytes(b"a reading")?;
/// keyed.feed(&[0b1010_0000], 3)?;
/// let tag = keyed.take().tag;
/// assert_eq!(tag, simd::hmac(256, b"a key", b"a reading\xa0", 75)?);
/// assert!(keyed.check(tag.as_bytes()));
/// assert!(!keyed.check(&tag.as_bytes()[..31]));
/// # Ok::<(), simd::Refusal>(())
/// ```
///
/// Stored and restored, it goes on as before. The stored form is as secret as the key: who has it
/// can make seals under that key.
///
/// ```
/// let mut keyed = simd::Hmac::open(512, b"a key")?;
/// keyed.feed_bytes(b"a read")?;
/// let stored = keyed.store().to_vec();
/// let mut restored = simd::Hmac::restore(&stored)?;
/// restored.feed_bytes(b"ing")?;
/// assert_eq!(restored.take().tag, simd::hmac_bytes(512, b"a key", b"a reading")?);
/// # Ok::<(), simd::Refusal>(())
/// ```
///
/// As an [`io::Write`] it takes whole bytes:
///
/// ```
/// let mut keyed = simd::Hmac::open(384, b"a key")?;
/// std::io::copy(&mut &b"a long record"[..], &mut keyed)?;
/// assert_eq!(keyed.take().tag, simd::hmac_bytes(384, b"a key", b"a long record")?);
/// # Ok::<(), Box<dyn std::error::Error>>(())
/// ```
///
/// `Debug` shows nothing that the key went into. When it is dropped its bytes are overwritten; not
/// so what moving it, or a call, left elsewhere on the stack.
#[derive(Clone)]
pub struct Hmac {
    form: [u8; HMAC_FORM_MAX],
    len: usize,
}

/// What [`Hmac::take`] answers.
#[derive(Clone, Copy, Debug, PartialEq, Eq)]
pub struct TakenTag {
    /// The tag of all bits fed. To compare it with given bytes is what [`Hmac::check`] is for: `==`
    /// may end at the first byte that differs.
    pub tag: Digest,
    /// The blocks compressed for it, 3 or 4.
    pub blocks: u64,
}

fn take(form: &[u8]) -> Result<TakenTag, Refusal> {
    let (mut bytes, mut blocks) = ([0; DIGEST_MAX], 0);
    // SAFETY: each pointer and length are those of one slice, and nothing overlaps.
    let number = unsafe {
        ffi::simd_hmac_take(
            form.as_ptr(),
            form.len(),
            bytes.as_mut_ptr(),
            bytes.len(),
            &mut blocks,
        )
    };
    Refusal::check(number)?;
    let width = u16::from_le_bytes([form[0], form[1]]);
    Ok(TakenTag {
        tag: Digest::new(bytes, width),
        blocks,
    })
}

impl Hmac {
    /// Opens a keyed hash. A key that is longer than a block, 64 or 128 bytes, is hashed first.
    ///
    /// Refused: [`Refusal::Width`], [`Refusal::Total`].
    pub fn open(width: u16, key: &[u8]) -> Result<Hmac, Refusal> {
        let mut keyed = Hmac {
            form: [0; HMAC_FORM_MAX],
            len: 2 * form_len(width),
        };
        // SAFETY: each pointer and length are those of one slice, and nothing overlaps the form.
        let number = unsafe {
            ffi::simd_hmac_open(
                width,
                key.as_ptr(),
                key.len(),
                keyed.form.as_mut_ptr(),
                keyed.form.len(),
            )
        };
        Refusal::check(number)?;
        Ok(keyed)
    }

    /// Feeds the first `bits` bits of a piece, and ignores the others; answers how many blocks were
    /// compressed.
    ///
    /// Refused: [`Refusal::Count`], [`Refusal::Total`]. The keyed hash is then unchanged.
    pub fn feed(&mut self, piece: &[u8], bits: u64) -> Result<u64, Refusal> {
        let mut blocks = 0;
        // SAFETY: each pointer and length are those of one slice, and nothing overlaps the form.
        let number = unsafe {
            ffi::simd_hmac_feed(
                self.form.as_mut_ptr(),
                self.len,
                piece.as_ptr(),
                piece.len(),
                bits,
                &mut blocks,
            )
        };
        Refusal::check(number)?;
        Ok(blocks)
    }

    /// Feeds whole bytes; answers how many blocks were compressed.
    ///
    /// Refused: [`Refusal::Total`]. The keyed hash is then unchanged.
    pub fn feed_bytes(&mut self, bytes: &[u8]) -> Result<u64, Refusal> {
        self.feed(bytes, bits_of(bytes.len())?)
    }

    /// The tag of all bits fed. The keyed hash stays open.
    pub fn take(&self) -> TakenTag {
        take(self.store()).expect("a keyed hash holds a legal form")
    }

    /// Whether some bytes are the whole tag of all bits fed, neither shorter nor longer nor other.
    /// They are compared with no early end. The keyed hash stays open.
    #[must_use = "the answer is whether the tag is right"]
    pub fn check(&self, tag: &[u8]) -> bool {
        let mut right = 0;
        // SAFETY: each pointer and length are those of one slice; both are only read.
        let number = unsafe {
            ffi::simd_hmac_check(
                self.form.as_ptr(),
                self.len,
                tag.as_ptr(),
                tag.len(),
                &mut right,
            )
        };
        Refusal::check(number).expect("a keyed hash holds a legal form");
        right == 1
    }

    /// The keyed form, twice [`form_len`] bytes: the stored form of the inner hash, then that of the outer
    /// one. It is as secret as the key.
    pub fn store(&self) -> &[u8] {
        &self.form[..self.len]
    }

    /// The keyed hash of a keyed form; also of an old one, of twice [`old_form_len`](crate::old_form_len)
    /// bytes, which is stored again in today's size.
    ///
    /// Refused: what [`Hash::restore`](crate::Hash::restore) refuses, of the first half and then of
    /// the second; then [`Refusal::Hash`].
    pub fn restore(form: &[u8]) -> Result<Hmac, Refusal> {
        // A form that has a tag is legal, and so are its halves.
        take(form)?;
        let (inner, outer) = form.split_at(form.len() / 2);
        let mut keyed = Hmac {
            form: [0; HMAC_FORM_MAX],
            len: 0,
        };
        keyed.len = restored(inner, &mut keyed.form)?;
        keyed.len += restored(outer, &mut keyed.form[keyed.len..])?;
        Ok(keyed)
    }

    /// The width.
    pub fn width(&self) -> u16 {
        u16::from_le_bytes([self.form[0], self.form[1]])
    }

    /// The count of bits fed, without those of the key block.
    pub fn bits(&self) -> u64 {
        length_of(&self.form) - 8 * block_len(self.width()) as u64
    }
}

impl Drop for Hmac {
    fn drop(&mut self) {
        for byte in &mut self.form {
            // A plain store may be left out, since nothing reads it.
            unsafe { ptr::write_volatile(byte, 0) };
        }
        atomic::compiler_fence(atomic::Ordering::SeqCst);
    }
}

impl fmt::Debug for Hmac {
    fn fmt(&self, f: &mut fmt::Formatter<'_>) -> fmt::Result {
        f.debug_struct("Hmac")
            .field("width", &self.width())
            .field("bits", &self.bits())
            .finish_non_exhaustive()
    }
}

/// Feeds whole bytes. A write that would pass [`BITS_MAX`](crate::BITS_MAX) with the key block is
/// refused as a whole, and the error holds [`Refusal::Total`].
impl io::Write for Hmac {
    fn write(&mut self, bytes: &[u8]) -> io::Result<usize> {
        self.feed_bytes(bytes)?;
        Ok(bytes.len())
    }

    fn flush(&mut self) -> io::Result<()> {
        Ok(())
    }
}

/// The tag of the first `bits` bits of a message under a key; the others are ignored.
///
/// Refused: [`Refusal::Width`]; [`Refusal::Total`] of the key; [`Refusal::Count`],
/// [`Refusal::Total`] of the message, which may have a block less than
/// [`BITS_MAX`](crate::BITS_MAX) bits.
///
/// ```
/// use simd::{hmac, Refusal};
///
/// let tag = hmac(512, b"a key", &[0xff, 0x80], 9)?;
/// assert_eq!(tag.as_bytes().len(), 64);
/// assert_eq!(hmac(512, b"a key", &[0xff, 0xc0], 9)?, tag);
/// assert_eq!(hmac(160, b"a key", &[0xff, 0xc0], 9), Err(Refusal::Width));
/// # Ok::<(), Refusal>(())
/// ```
pub fn hmac(width: u16, key: &[u8], message: &[u8], bits: u64) -> Result<Digest, Refusal> {
    let mut bytes = [0; DIGEST_MAX];
    // SAFETY: each pointer and length are those of one slice, and nothing overlaps the output.
    let number = unsafe {
        ffi::simd_hmac(
            width,
            key.as_ptr(),
            key.len(),
            message.as_ptr(),
            message.len(),
            bits,
            bytes.as_mut_ptr(),
            bytes.len(),
        )
    };
    Refusal::check(number)?;
    Ok(Digest::new(bytes, width))
}

/// The tag of a message of whole bytes under a key. Given bytes are compared with a tag by
/// [`Hmac::check`]: `==` may end early.
///
/// Refused: [`Refusal::Width`], [`Refusal::Total`].
pub fn hmac_bytes(width: u16, key: &[u8], message: &[u8]) -> Result<Digest, Refusal> {
    hmac(width, key, message, message_bits(width, message.len())?)
}
