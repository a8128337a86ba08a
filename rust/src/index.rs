use crate::{bits_of, block_len, ffi, Digest, Refusal, DIGEST_MAX, HEAD};

/// The blocks from one state of an index to the next.
const SPAN: usize = 16;

/// What [`index()`] and [`reindex`] answer.
#[derive(Clone, Debug, PartialEq, Eq)]
pub struct Indexed {
    /// The index of the message: the width (2 bytes) and the bit length (8), both low byte first,
    /// then the states before blocks 0, 16, 32 and so on, one for every full block so numbered.
    pub index: Vec<u8>,
    /// The digest of the message.
    pub digest: Digest,
    /// The blocks compressed, with the length block.
    pub blocks: u64,
}

/// The bytes of an index.
fn index_len(width: u16, bits: u64) -> usize {
    // Divided first: a message at hand has no more blocks than a usize counts.
    let full = (bits / (8 * block_len(width) as u64)) as usize;
    HEAD + block_len(width) * full.div_ceil(SPAN)
}

/// A call that writes an index and a digest.
fn run(
    width: u16,
    message: &[u8],
    bits: u64,
    call: impl FnOnce(&mut [u8], &mut [u8], &mut u64) -> u8,
) -> Result<Indexed, Refusal> {
    // A count that is refused asks for no more room than the message.
    let counted = bits_of(message.len()).map_or(bits, |all| bits.min(all));
    let mut index = vec![0; index_len(width, counted)];
    let (mut bytes, mut blocks) = ([0; DIGEST_MAX], 0);
    Refusal::check(call(&mut index, &mut bytes, &mut blocks))?;
    Ok(Indexed {
        index,
        digest: Digest::new(bytes, width),
        blocks,
    })
}

/// The digest of the first `bits` bits of a message, as [`hash`](crate::hash) has it, and their index,
/// to be kept beside a long record for [`reindex`].
///
/// Refused: [`Refusal::Width`], [`Refusal::Count`].
///
/// ```
/// let record = vec![0; 10_000];
/// let indexed = simd::index(256, &record, 80_000)?;
/// assert_eq!(indexed.digest, simd::hash_bytes(256, &record)?);
/// assert_eq!(indexed.index.len(), 10 + 10 * 64);
/// assert_eq!(indexed.blocks, 158);
/// # Ok::<(), simd::Refusal>(())
/// ```
pub fn index(width: u16, message: &[u8], bits: u64) -> Result<Indexed, Refusal> {
    run(width, message, bits, |index, out, blocks| {
        // SAFETY: each pointer and length are those of one slice, and nothing overlaps.
        unsafe {
            ffi::simd_index(
                width,
                message.as_ptr(),
                message.len(),
                bits,
                index.as_mut_ptr(),
                index.len(),
                out.as_mut_ptr(),
                out.len(),
                blocks,
            )
        }
    })
}

/// The digest and the index of a corrected message, from the index that was kept and the number of the
/// first block that was corrected.
///
/// Blocks are counted from the front and have 64 bytes, at widths 384 and 512 128; the length block,
/// behind the last one, is allowed too. The work starts at the last state kept for that block or one
/// before it, so that a correction in the last block compresses at most 18 blocks.
///
/// Where `old` is the index of an earlier message of the same length that equals this one in all
/// blocks before the given one, index and digest are those of [`index()`]. The states of `old` are taken
/// as they are: from any other index of the right shape, and from a number behind the first corrected
/// block, follows what its states give.
///
/// Refused: [`Refusal::Width`], [`Refusal::Count`]; [`Refusal::Index`] where the index has another
/// size, width or bit length, or the number is above the length block's. An old index, with 4 length
/// bytes, has another size: it is made again by [`index()`].
///
/// ```
/// use simd::{index, reindex, Refusal};
///
/// let mut record = vec![0; 10_000];
/// let before = index(256, &record, 80_000)?;
///
/// record[9876] = 37;
/// let after = reindex(256, &record, 80_000, &before.index, 9876 / 64)?;
/// assert_eq!(after.digest, simd::hash_bytes(256, &record)?);
/// assert_eq!(after.index, index(256, &record, 80_000)?.index);
/// assert_eq!((before.blocks, after.blocks), (158, 14));
///
/// let shorter = reindex(256, &record, 79_999, &before.index, 0);
/// assert_eq!(shorter, Err(Refusal::Index));
/// # Ok::<(), Refusal>(())
/// ```
pub fn reindex(
    width: u16,
    message: &[u8],
    bits: u64,
    old: &[u8],
    block: u64,
) -> Result<Indexed, Refusal> {
    run(width, message, bits, |index, out, blocks| {
        // SAFETY: each pointer and length are those of one slice, and nothing overlaps an output.
        unsafe {
            ffi::simd_reindex(
                width,
                message.as_ptr(),
                message.len(),
                bits,
                old.as_ptr(),
                old.len(),
                block,
                index.as_mut_ptr(),
                index.len(),
                out.as_mut_ptr(),
                out.len(),
                blocks,
            )
        }
    })
}

#[cfg(test)]
mod tests {
    use super::*;

    /// Sizes up to the most bits, as `SIMD_INDEX` has them in C.
    #[test]
    fn sizes_of_indexes() {
        for (width, bits, len) in [
            (224, 0, 10),
            (256, 511, 10),
            (256, 512, 74),
            (224, 8703, 74),
            (256, 8704, 138),
            (512, 1023, 10),
            (512, 1024, 138),
            (384, 17_407, 138),
            (512, 17_408, 266),
            (256, (1 << 32) - 1, 33_554_442),
            (256, (1 << 32) + 512, 33_554_506),
            (512, (1 << 32) + 1024, 33_554_570),
            (256, u64::MAX, 144_115_188_075_855_882),
            (512, u64::MAX, 144_115_188_075_855_882),
        ] {
            assert_eq!(index_len(width, bits), len);
        }
    }
}
