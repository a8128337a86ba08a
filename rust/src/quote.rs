use crate::{ffi, Refusal};

const QUOTE_LEN: usize = 18;

/// The quote of a digest: 18 characters, the 16 lowercase hexadecimal digits of its first 8 bytes and
/// two decimal check digits.
///
/// With the 16 read as a number N, the check is 98 - (100 N modulo 97). The quote of every digest is
/// right ([`quote_check`]). Of a [`Digest`](crate::Digest) it is also
/// [`Digest::quote`](crate::Digest::quote).
///
/// Refused: [`Refusal::Width`]; [`Refusal::Block`] where the digest has another length than the width
/// asks.
///
/// ```
/// use simd::{quote, Refusal};
///
/// let digest = simd::hash_bytes(256, b"abc")?;
/// assert_eq!(quote(256, digest.as_bytes())?, "071bda9fa6887f4579");
/// assert_eq!(quote(256, &[0; 32])?, "000000000000000098");
/// assert_eq!(quote(256, &[0; 8]), Err(Refusal::Block));
/// # Ok::<(), Refusal>(())
/// ```
pub fn quote(width: u16, digest: &[u8]) -> Result<String, Refusal> {
    let mut text = vec![0; QUOTE_LEN];
    // SAFETY: each pointer and length are those of one slice, and nothing overlaps the output.
    let number = unsafe {
        ffi::simd_quote(
            width,
            digest.as_ptr(),
            digest.len(),
            text.as_mut_ptr(),
            text.len(),
        )
    };
    Refusal::check(number)?;
    Ok(String::from_utf8(text).expect("a quote is ASCII"))
}

/// Whether bytes are a right quote: 16 lowercase hexadecimal digits and their two check digits,
/// neither shorter nor longer.
///
/// With the check digits kept, one hexadecimal digit changed to anything, or two unequal neighbours
/// among the 16 exchanged, always makes a right quote wrong. That finds a slip, not a forgery: anyone
/// can work out the check digits of any 16.
///
/// ```
/// use simd::quote_check;
///
/// assert!(quote_check(b"071bda9fa6887f4579"));
/// assert!(!quote_check(b"071bda9fa6837f4579")); // 8 read as 3
/// assert!(!quote_check(b"701bda9fa6887f4579")); // 0 and 7 exchanged
/// assert!(!quote_check(b"071BDA9FA6887F4579"));
/// assert!(!quote_check(b"071bda9f"));
/// ```
#[must_use = "the answer is whether the quote is right"]
pub fn quote_check(quote: &[u8]) -> bool {
    let mut right = 0;
    // SAFETY: the pointer and length are those of one slice.
    let number = unsafe { ffi::simd_quote_check(quote.as_ptr(), quote.len(), &mut right) };
    Refusal::check(number).expect("no quote is refused");
    right == 1
}
