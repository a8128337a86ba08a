//! The calls of `include/simd.h`.

/// `simd_steps` and `simd_unsteps`.
pub type Stepping =
    unsafe extern "C" fn(u16, bool, *const u8, usize, *const u8, usize, *mut u8, usize) -> u8;

extern "C" {
    pub fn simd_open(width: u16, form: *mut u8, form_len: usize) -> u8;

    pub fn simd_feed(
        form: *mut u8,
        form_len: usize,
        piece: *const u8,
        piece_len: usize,
        bits: u64,
        blocks: *mut u64,
    ) -> u8;

    pub fn simd_take(
        form: *const u8,
        form_len: usize,
        out: *mut u8,
        out_len: usize,
        blocks: *mut u64,
    ) -> u8;

    pub fn simd_restore(stored: *const u8, stored_len: usize, form: *mut u8, form_len: usize)
        -> u8;

    pub fn simd_hash(
        width: u16,
        message: *const u8,
        message_len: usize,
        bits: u64,
        out: *mut u8,
        out_len: usize,
    ) -> u8;

    pub fn simd_hmac_open(
        width: u16,
        key: *const u8,
        key_len: usize,
        form: *mut u8,
        form_len: usize,
    ) -> u8;

    pub fn simd_hmac_feed(
        form: *mut u8,
        form_len: usize,
        piece: *const u8,
        piece_len: usize,
        bits: u64,
        blocks: *mut u64,
    ) -> u8;

    pub fn simd_hmac_take(
        form: *const u8,
        form_len: usize,
        tag: *mut u8,
        tag_len: usize,
        blocks: *mut u64,
    ) -> u8;

    pub fn simd_hmac_check(
        form: *const u8,
        form_len: usize,
        tag: *const u8,
        tag_len: usize,
        right: *mut u64,
    ) -> u8;

    pub fn simd_hmac(
        width: u16,
        key: *const u8,
        key_len: usize,
        message: *const u8,
        message_len: usize,
        bits: u64,
        tag: *mut u8,
        tag_len: usize,
    ) -> u8;

    pub fn simd_expand(
        width: u16,
        last: bool,
        block: *const u8,
        block_len: usize,
        out: *mut u32,
        out_len: usize,
    ) -> u8;

    pub fn simd_steps(
        width: u16,
        last: bool,
        state: *const u8,
        state_len: usize,
        block: *const u8,
        block_len: usize,
        out: *mut u8,
        out_len: usize,
    ) -> u8;

    pub fn simd_unsteps(
        width: u16,
        last: bool,
        state: *const u8,
        state_len: usize,
        block: *const u8,
        block_len: usize,
        out: *mut u8,
        out_len: usize,
    ) -> u8;

    pub fn simd_compare(
        width: u16,
        a: *const u8,
        a_len: usize,
        a_bits: u64,
        b: *const u8,
        b_len: usize,
        b_bits: u64,
        verdict: *mut u64,
        block: *mut u64,
    ) -> u8;

    pub fn simd_tape(
        tape: *const u8,
        tape_len: usize,
        out: *mut u8,
        out_len: usize,
        count: *mut u64,
        place: *mut u64,
    ) -> u8;

    pub fn simd_page_entry(
        number: u64,
        width: u16,
        digest: *const u8,
        digest_len: usize,
        out: *mut u8,
        out_len: usize,
    ) -> u8;

    pub fn simd_quote(
        width: u16,
        digest: *const u8,
        digest_len: usize,
        out: *mut u8,
        out_len: usize,
    ) -> u8;

    pub fn simd_quote_check(quote: *const u8, quote_len: usize, right: *mut u64) -> u8;

    pub fn simd_index(
        width: u16,
        message: *const u8,
        message_len: usize,
        bits: u64,
        index: *mut u8,
        index_len: usize,
        out: *mut u8,
        out_len: usize,
        blocks: *mut u64,
    ) -> u8;

    pub fn simd_reindex(
        width: u16,
        message: *const u8,
        message_len: usize,
        bits: u64,
        old: *const u8,
        old_len: usize,
        block: u64,
        index: *mut u8,
        index_len: usize,
        out: *mut u8,
        out_len: usize,
        blocks: *mut u64,
    ) -> u8;
}
