use crate::{ffi, is_large, Refusal};

/// The greatest number of an entry of a page.
pub const NUMBER_MAX: u64 = 999_999;

/// The bytes of a line: 75 columns and a newline.
const LINE: usize = 76;
const ENTRY_MAX: usize = 2 * LINE;

/// The lines of one entry of a page for the ledger binder; a page is the entries' lines in turn.
///
/// A line has 75 columns and a newline: the number in 6 columns, right-aligned; a space; the width in
/// 3; a space; 64 lowercase hexadecimal digits of the digest, filled with spaces on the right. Widths
/// 384 and 512 have a second line, for the other digits, whose first 11 columns are spaces.
///
/// Refused: [`Refusal::Width`]; [`Refusal::Block`] where the digest has another length than the width
/// asks; [`Refusal::Entry`] where the number is above [`NUMBER_MAX`].
///
/// ```
/// let digest = simd::hash_bytes(512, b"abc")?;
/// let mut page = simd::page_entry(9, 512, digest.as_bytes())?;
/// let hex = digest.to_string();
/// assert_eq!(page, format!("     9 512 {}\n           {}\n", &hex[..64], &hex[64..]));
///
/// let digest = simd::hash_bytes(256, b"abc")?;
/// page += &simd::page_entry(10, 256, digest.as_bytes())?;
/// assert!(page.ends_with(&format!("    10 256 {digest}\n")));
/// assert!(page.lines().all(|line| line.len() == 75));
/// # Ok::<(), simd::Refusal>(())
/// ```
pub fn page_entry(number: u64, width: u16, digest: &[u8]) -> Result<String, Refusal> {
    let mut lines = vec![0; ENTRY_MAX];
    // SAFETY: each pointer and length are those of one slice, and nothing overlaps the output.
    let number = unsafe {
        ffi::simd_page_entry(
            number,
            width,
            digest.as_ptr(),
            digest.len(),
            lines.as_mut_ptr(),
            lines.len(),
        )
    };
    Refusal::check(number)?;
    lines.truncate(if is_large(width) { ENTRY_MAX } else { LINE });
    Ok(String::from_utf8(lines).expect("an entry is ASCII"))
}
