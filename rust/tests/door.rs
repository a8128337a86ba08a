//! The wrapper against the digests of appendix A, the formula of keyed seals, the lines of a page, the
//! reckoning of quotes, and the states that an index keeps; what is past a count; old stored forms,
//! and lengths that 32 bits do not hold; and its refusals.

use std::fs;
use std::io::Write;
use std::path::Path;

use simd::{
    compare, expand, form_len, hash, hash_bytes, hmac, hmac_bytes, index, old_form_len, page_entry,
    quote, quote_check, reindex, steps, tape, Hash, Hmac, Indexed, Refusal, Verdict, BITS_MAX,
    NUMBER_MAX,
};

const WIDTHS: [u16; 4] = [224, 256, 384, 512];

struct Message {
    width: u16,
    bits: u64,
    data: Vec<u8>,
    digest: String,
}

fn from_hex(text: &str) -> Vec<u8> {
    (0..text.len() / 2)
        .map(|k| u8::from_str_radix(&text[2 * k..2 * k + 2], 16).unwrap())
        .collect()
}

/// Some bits of a byte string, as a piece of their own.
fn piece_of(data: &[u8], at: u64, count: u64) -> Vec<u8> {
    (0..count.div_ceil(8))
        .map(|byte| {
            (8 * byte..(8 * byte + 8).min(count))
                .map(|k| (data[((at + k) / 8) as usize] << ((at + k) % 8) & 0x80) >> (k % 8))
                .sum()
        })
        .collect()
}

/// The messages and digests of tests/appendix_a.
fn messages() -> Vec<Message> {
    let mut found = Vec::new();
    for width in WIDTHS {
        let name = format!("../tests/appendix_a/simd{width}.txt");
        let text = fs::read_to_string(Path::new(env!("CARGO_MANIFEST_DIR")).join(name)).unwrap();
        let (mut bits, mut data) = (0, Vec::new());
        for line in text.lines() {
            let field: Vec<&str> = line.split(' ').collect();
            match field[0] {
                "message" => bits = field[3].parse().unwrap(),
                "data" => data = from_hex(field[1].trim_matches('-')),
                "digest" => {
                    found.push(Message {
                        width,
                        bits,
                        data: data.clone(),
                        digest: field[1].to_string(),
                    });
                }
                _ => {}
            }
        }
    }
    found
}

#[test]
fn appendix_a_digests() {
    let messages = messages();
    assert_eq!(messages.len(), 12);
    for m in &messages {
        assert_eq!(
            hash(m.width, &m.data, m.bits).unwrap().to_string(),
            m.digest
        );
    }
}

#[test]
fn pieces_with_store_and_restore_between() {
    for m in messages() {
        for size in [1, 3, 8, 500, 513] {
            let mut open = Hash::open(m.width).unwrap();
            let (mut at, mut blocks) = (0, 0);
            while at < m.bits {
                let count = size.min(m.bits - at);
                blocks += open.feed(&piece_of(&m.data, at, count), count).unwrap();
                open = Hash::restore(open.store()).unwrap();
                at += count;
            }
            assert_eq!(open.bits(), m.bits);
            let taken = open.take();
            assert_eq!(taken.digest.to_string(), m.digest);
            let block_bits = if m.width > 256 { 1024 } else { 512 };
            assert_eq!(blocks + taken.blocks, m.bits.div_ceil(block_bits) + 1);
        }
    }
}

#[test]
fn writing_is_feeding_whole_bytes() {
    let data: Vec<u8> = (0..1000).map(|k| (k * 7) as u8).collect();
    for width in WIDTHS {
        let mut open = Hash::open(width).unwrap();
        for piece in data.chunks(37) {
            open.write_all(piece).unwrap();
        }
        assert_eq!(open.take().digest, hash(width, &data, 8000).unwrap());
    }
}

#[test]
fn writing_past_the_limit_is_an_error() {
    for width in WIDTHS {
        let mut open = with_length(width, BITS_MAX - 8);
        assert_eq!(open.write(&[1]).unwrap(), 1);
        assert_eq!(open.bits(), BITS_MAX);
        let before = open.clone();
        let error = open.write(&[1]).unwrap_err();
        let inner = error.into_inner().unwrap();
        assert_eq!(inner.downcast_ref::<Refusal>(), Some(&Refusal::Total));
        assert_eq!(open.feed(&[0x80], 1), Err(Refusal::Total));
        assert_eq!(open.feed(&[0x80], 9), Err(Refusal::Count));
        assert_eq!(open, before);
        assert_eq!(open.write(&[]).unwrap(), 0);

        let mut open = with_length(width, BITS_MAX - 1);
        let before = open.clone();
        assert_eq!(open.feed(&[0xc0], 2), Err(Refusal::Total));
        assert_eq!(open, before);
        assert!(open.feed(&[0xc0], 1).is_ok());
        assert_eq!(open.bits(), BITS_MAX);
    }
}

/// The stored form of the empty hash with another length, and so with zeros for a tail.
fn form_with_length(width: u16, bits: u64) -> Vec<u8> {
    let mut form = Hash::open(width).unwrap().store().to_vec();
    form[2..10].copy_from_slice(&bits.to_le_bytes());
    form
}

fn with_length(width: u16, bits: u64) -> Hash {
    Hash::restore(&form_with_length(width, bits)).unwrap()
}

/// A stored form as it was while its length had 4 bytes.
fn old_form(form: &[u8]) -> Vec<u8> {
    assert_eq!(form[6..10], [0; 4]);
    [&form[..6], &form[10..]].concat()
}

fn old_keyed_form(form: &[u8]) -> Vec<u8> {
    let (inner, outer) = form.split_at(form.len() / 2);
    [old_form(inner), old_form(outer)].concat()
}

/// (length, zero bits fed, blocks compressed by that, the first digits of the digest at each width) by
/// tests/reference/simd_ref.py, from the starting state and a tail of zeros.
const LENGTHS: [(u64, u64, u64, [&str; 4]); 7] = [
    (
        (1 << 32) - 1,
        0,
        0,
        [
            "5ff38a2dacb4c061",
            "8fa70d6eb16d2169",
            "6964aab7e2d4e7ef",
            "a7ffd20202598bce",
        ],
    ),
    (
        (1 << 32) - 1,
        1,
        1,
        [
            "ee3e6002618efbe3",
            "10826dcd2666bbad",
            "a1fc4867e254775d",
            "1328c109a27ee981",
        ],
    ),
    (
        (1 << 32) - 1,
        2,
        1,
        [
            "7b9c4c5f81ccfe9c",
            "27455ff0a71e773b",
            "2faf5eac33399d41",
            "adbaf77662eae171",
        ],
    ),
    (
        1 << 32,
        0,
        0,
        [
            "ce8907d7b3e3bfc5",
            "0f5dbfa6ca4f139d",
            "094617a30981e06c",
            "1c8e4aff9bcc83d3",
        ],
    ),
    (
        (1 << 32) + 1,
        0,
        0,
        [
            "afa51c043bc12bda",
            "fc98ba69a5f02121",
            "c9f786646b155e1b",
            "396a7cb62a960735",
        ],
    ),
    (
        1 << 63,
        7,
        0,
        [
            "c5de0d3ed26b95ba",
            "c700c687a9c41883",
            "088e5e4cc7c2fedc",
            "a12b19484d319faf",
        ],
    ),
    (
        BITS_MAX - 8,
        8,
        0,
        [
            "6783e7aded0efc41",
            "566bff666c43516e",
            "87854dd28482b135",
            "588bd7005a175eb8",
        ],
    ),
];

/// Lengths around and above what 32 bits hold, by stored forms; where an old form can have the length,
/// from both.
#[test]
fn lengths_above_32_bits() {
    for (length, more, blocks, digits) in LENGTHS {
        for (width, digits) in WIDTHS.into_iter().zip(digits) {
            let form = form_with_length(width, length);
            let mut forms = vec![form.clone()];
            if length < 1 << 32 {
                forms.push(old_form(&form));
            }
            for given in forms {
                let mut open = Hash::restore(&given).unwrap();
                assert_eq!((open.width(), open.bits()), (width, length));
                assert_eq!(open.store(), form);
                assert_eq!(open.feed(&[0], more), Ok(blocks));
                assert_eq!(open.bits(), length + more);
                assert_eq!(format!("{:.16}", open.take().digest), digits);
                let again = Hash::restore(open.store()).unwrap();
                assert_eq!(again, open);
                assert!(format!("{open:?}").contains(&(length + more).to_string()));
            }
        }
    }
}

/// A message that 32 bits do not count goes whole through every call that takes one, and gives what an
/// open hash makes of it in pieces; that one is held to another program by tests/test_limit.py.
#[test]
fn a_message_above_32_bits() {
    const BITS: u64 = (1 << 32) + 1;
    let mut data = vec![0; (1 << 29) + 1];
    data[1 << 29] = 0xff;
    let mut open = Hash::open(256).unwrap();
    for part in data[..1 << 29].chunks(1 << 28) {
        open.feed_bytes(part).unwrap();
    }
    assert_eq!(open.bits(), 1 << 32);
    assert_eq!(hash_bytes(256, &data[..1 << 29]), Ok(open.take().digest));
    open.feed(&data[1 << 29..], 1).unwrap();
    let digest = open.take().digest;
    assert_eq!(open.bits(), BITS);
    assert_eq!(hash(256, &data, BITS), Ok(digest));

    let fresh = index(256, &data, BITS).unwrap();
    assert_eq!((fresh.digest, fresh.blocks), (digest, (1 << 23) + 2));
    let mut keyed = Hmac::open(256, b"a key").unwrap();
    keyed.feed(&data, BITS).unwrap();
    assert_eq!(keyed.bits(), BITS);
    assert_eq!(hmac(256, b"a key", &data, BITS), Ok(keyed.take().tag));

    let verdict = compare(256, &data, BITS, &data[..1], 1);
    assert_eq!(verdict, Ok(Verdict::Apart));
    assert_eq!(compare(256, &data, BITS, &data, BITS), Ok(Verdict::Same));
    // The last bit corrected, from the last block on.
    data[1 << 29] = 0;
    let corrected = reindex(256, &data, BITS, &fresh.index, 1 << 23).unwrap();
    assert_eq!(corrected.blocks, 18);
    assert_eq!(corrected.digest, hash(256, &data, BITS).unwrap());
    assert_ne!(corrected.digest, digest);
}

/// The digests of appendix A, by hashes that went through old forms between their pieces.
#[test]
fn old_forms_go_on_in_todays_size() {
    for m in messages() {
        let (old, today) = if m.width > 256 {
            (262, 266)
        } else {
            (134, 138)
        };
        for size in [1, 3, 500, 513] {
            let mut open = Hash::open(m.width).unwrap();
            let mut at = 0;
            while at < m.bits {
                let count = size.min(m.bits - at);
                open.feed(&piece_of(&m.data, at, count), count).unwrap();
                let stored = old_form(open.store());
                assert_eq!(stored.len(), old);
                let restored = Hash::restore(&stored).unwrap();
                assert_eq!(restored.store().len(), today);
                assert_eq!(restored, open);
                open = restored;
                at += count;
            }
            assert_eq!(open.bits(), m.bits);
            assert_eq!(open.take().digest.to_string(), m.digest);
        }
    }
}

/// Of all sizes a width spares two; and the width comes first.
#[test]
fn sizes_of_stored_forms() {
    for (width, sizes) in [
        (224, [134, 138]),
        (256, [134, 138]),
        (384, [262, 266]),
        (512, [262, 266]),
    ] {
        assert_eq!([old_form_len(width), form_len(width)], sizes);
        for len in 0..600 {
            let mut form = vec![0; len];
            let restore = |form: &[u8]| Hash::restore(form).map(|open| open.store().len());
            if len < 2 {
                assert_eq!(restore(&form), Err(Refusal::Form));
                continue;
            }
            form[..2].copy_from_slice(&u16::to_le_bytes(width + 1));
            assert_eq!(restore(&form), Err(Refusal::Width));
            form[..2].copy_from_slice(&width.to_le_bytes());
            let expected = if sizes.contains(&len) {
                Ok(sizes[1])
            } else {
                Err(Refusal::Form)
            };
            assert_eq!(restore(&form), expected);
        }
    }
}

#[test]
fn refusals() {
    assert_eq!(Hash::open(255).unwrap_err(), Refusal::Width);
    assert_eq!(Hash::restore(&[0]).unwrap_err(), Refusal::Form);
    assert_eq!(Hash::restore(&[0, 0]).unwrap_err(), Refusal::Width);

    let mut form = Hash::open(512).unwrap().store().to_vec();
    assert_eq!(form.len(), 266);
    assert_eq!(Hash::restore(&form[..265]).unwrap_err(), Refusal::Form);
    form[265] = 1;
    assert_eq!(Hash::restore(&form).unwrap_err(), Refusal::Tail);
    form.push(0);
    assert_eq!(Hash::restore(&form).unwrap_err(), Refusal::Form);

    let mut open = Hash::open(224).unwrap();
    assert_eq!(open.feed(&[0xff], 9), Err(Refusal::Count));
    assert_eq!(open, Hash::open(224).unwrap());
    let mut clean = open.clone();
    assert_eq!(open.feed(&[0xff], 7), clean.feed(&[0xfe], 7));
    assert_eq!(open, clean);

    assert_eq!(expand(256, false, &[0; 63]), Err(Refusal::Block));
    assert_eq!(steps(256, false, &[0; 64], &[0; 128]), Err(Refusal::Block));
    assert_eq!(compare(256, &[0xff], 7, &[], 1), Err(Refusal::Count));
    assert_eq!(compare(256, &[0xff], 7, &[0xfe], 7), Ok(Verdict::Same));
    assert_eq!(compare(256, &[0xff], 8, &[], 1), Err(Refusal::Count));
}

/// The formula of FIPS 198-1 over `hash`, for a message of any count of bits.
fn formula(width: u16, key: &[u8], data: &[u8], bits: u64) -> Vec<u8> {
    let size = if width > 256 { 128 } else { 64 };
    let mut block = if key.len() > size {
        hash_bytes(width, key).unwrap().to_vec()
    } else {
        key.to_vec()
    };
    block.resize(size, 0);
    let padded = |pad: u8| block.iter().map(|byte| byte ^ pad).collect::<Vec<u8>>();
    let inner = [padded(0x36), data.to_vec()].concat();
    let inner = hash(width, &inner, 8 * size as u64 + bits).unwrap();
    hash_bytes(width, &[padded(0x5c), inner.to_vec()].concat())
        .unwrap()
        .to_vec()
}

/// Tags of tests/reference/hmac_ref.py.
#[test]
fn tags_of_the_reference() {
    for (width, tag) in [
        (
            224,
            "d35bf638f445ca7c1cae879006ace41a80cbab62b3620bd4cbaac70b",
        ),
        (
            256,
            "75e3b543c5d38facac535470f2103abc77a1be105e6dde309fda7b84465a99d9",
        ),
        (
            384,
            "ca14d26de04067064ee6f61a8a8fec2c27eaebca6785832aa7b55d6ab26bd2fa\
             823ef1cb85e4389cd3f3e1a12d4fbd27",
        ),
        (
            512,
            "3ddd80876d94d20e67b0acf7e32f0b3dd5cd66cfb74002645e205ee1e0293220\
             0b40ff50e6c0d5614201da880c009905cf69f911bee606845dc3f17e24ed20c4",
        ),
    ] {
        let found = hmac_bytes(width, b"a key", b"a reading").unwrap();
        assert_eq!(found.to_string(), tag);
        assert_eq!(found.to_vec(), formula(width, b"a key", b"a reading", 72));
    }
}

#[test]
fn keys_and_pieces_with_store_and_restore_between() {
    let data: Vec<u8> = (0..1000).map(|k| (k * 7 + k / 256) as u8).collect();
    for width in WIDTHS {
        let block_bits = if width > 256 { 1024 } else { 512 };
        for key_len in [0, 1, 63, 64, 65, 127, 128, 129, 256, 300] {
            let key = &data[500..500 + key_len];
            for (bits, size) in [(0, 1), (700, 13), (1024, 512), (1079, 1), (4000, 777)] {
                let message = piece_of(&data, 3, bits);
                let expected = formula(width, key, &message, bits);
                let one_call = hmac(width, key, &message, bits).unwrap();
                assert_eq!(one_call.to_vec(), expected);

                let mut keyed = Hmac::open(width, key).unwrap();
                let (mut at, mut blocks) = (0, 0);
                while at < bits {
                    let count = size.min(bits - at);
                    blocks += keyed.feed(&piece_of(&message, at, count), count).unwrap();
                    let old = Hmac::restore(&old_keyed_form(keyed.store())).unwrap();
                    assert_eq!(old.store(), keyed.store());
                    assert_eq!(old.take(), keyed.take());
                    keyed = Hmac::restore(keyed.store()).unwrap();
                    at += count;
                }
                assert_eq!(keyed.width(), width);
                assert_eq!(keyed.bits(), bits);
                let taken = keyed.take();
                assert_eq!(taken.tag.to_vec(), expected);
                assert_eq!(blocks + taken.blocks, bits.div_ceil(block_bits) + 3);
                assert_eq!(keyed.take(), taken);
                assert!(keyed.check(&expected));
            }
        }
    }
}

#[test]
fn only_the_whole_tag_is_right() {
    for width in WIDTHS {
        let mut keyed = Hmac::open(width, b"a key").unwrap();
        keyed.feed(b"a reading\xa0", 75).unwrap();
        let tag = keyed.take().tag.to_vec();
        assert!(keyed.check(&tag));
        for len in 0..tag.len() {
            assert!(!keyed.check(&tag[..len]));
            for bit in 0..8 {
                let mut other = tag.clone();
                other[len] ^= 1 << bit;
                assert!(!keyed.check(&other));
            }
        }
        for more in [&[0][..], &tag[..1], &tag[..]] {
            assert!(!keyed.check(&[&tag, more].concat()));
        }
        keyed.feed_bytes(b"").unwrap();
        assert!(keyed.check(&tag));
        keyed.feed(&[0], 1).unwrap();
        assert!(!keyed.check(&tag));
    }
}

#[test]
fn writing_is_feeding_a_keyed_hash() {
    let data: Vec<u8> = (0..1000).map(|k| (k * 7) as u8).collect();
    for width in WIDTHS {
        let mut keyed = Hmac::open(width, &data[..99]).unwrap();
        for piece in data.chunks(37) {
            keyed.write_all(piece).unwrap();
        }
        keyed.flush().unwrap();
        assert_eq!(
            keyed.take().tag,
            hmac_bytes(width, &data[..99], &data).unwrap()
        );
    }
}

/// The key block counts: a hash of a block less than the limit takes no bit more.
#[test]
fn writing_past_the_limit_with_the_key_block_is_an_error() {
    for (width, block_bits) in [(224, 512), (512, 1024)] {
        let mut form = Hmac::open(width, b"a key").unwrap().store().to_vec();
        form[2..10].copy_from_slice(&(BITS_MAX - 8).to_le_bytes());
        let mut keyed = Hmac::restore(&form).unwrap();
        assert_eq!(keyed.write(&[1]).unwrap(), 1);
        assert_eq!(keyed.bits(), BITS_MAX - block_bits);
        let before = keyed.store().to_vec();
        let error = keyed.write(&[1]).unwrap_err();
        let inner = error.into_inner().unwrap();
        assert_eq!(inner.downcast_ref::<Refusal>(), Some(&Refusal::Total));
        assert_eq!(keyed.feed(&[0x80], 1), Err(Refusal::Total));
        assert_eq!(keyed.store(), before);
        assert_eq!(keyed.write(&[]).unwrap(), 0);
    }
}

/// A keyed hash fed on from an old form. Its tag is that of the formula.
#[test]
fn old_keyed_forms_go_on_in_todays_size() {
    for (width, old, today) in [
        (224, 268, 276),
        (256, 268, 276),
        (384, 524, 532),
        (512, 524, 532),
    ] {
        for first in [0, 3, 511, 512, 1024, 1025] {
            let data: Vec<u8> = (0..300).map(|k| (k * 7) as u8).collect();
            let mut keyed = Hmac::open(width, b"a key").unwrap();
            keyed.feed(&data, first).unwrap();
            let stored = old_keyed_form(keyed.store());
            assert_eq!(stored.len(), old);
            let mut restored = Hmac::restore(&stored).unwrap();
            assert_eq!(restored.store().len(), today);
            assert_eq!(restored.store(), keyed.store());
            assert_eq!((restored.width(), restored.bits()), (width, first));
            let rest = 2400 - first;
            restored.feed(&piece_of(&data, first, rest), rest).unwrap();
            let tag = formula(width, b"a key", &data, 2400);
            assert_eq!(restored.take().tag.to_vec(), tag);
            assert!(restored.check(&tag));
            assert_eq!(restored.store().len(), today);
        }
    }
}

/// Inner hashes longer than 32 bits hold: the tag is what the two hashes give, one by one.
#[test]
fn keyed_lengths_above_32_bits() {
    for width in WIDTHS {
        for length in [(1 << 32) - 1, 1 << 32, (1 << 32) + 1, 1 << 40, BITS_MAX] {
            let mut form = Hmac::open(width, b"a key").unwrap().store().to_vec();
            form[2..10].copy_from_slice(&length.to_le_bytes());
            let keyed = Hmac::restore(&form).unwrap();
            assert_eq!(keyed.bits(), length - block_bits(width));
            let (inner, outer) = form.split_at(form.len() / 2);
            let inner = Hash::restore(inner).unwrap().take().digest;
            let mut outer = Hash::restore(outer).unwrap();
            outer.feed_bytes(inner.as_bytes()).unwrap();
            let tag = outer.take().digest;
            assert_eq!(keyed.take().tag, tag);
            assert!(keyed.check(tag.as_bytes()));
        }
    }
}

#[test]
fn refusals_of_keyed_hashes() {
    assert_eq!(Hmac::open(255, b"").unwrap_err(), Refusal::Width);
    assert_eq!(hmac(255, b"", &[0xff], 7), Err(Refusal::Width));
    assert_eq!(hmac(256, b"", &[0xff], 7), hmac(256, b"", &[0xfe], 7));
    assert_eq!(hmac(256, b"", &[0xff], 9), Err(Refusal::Count));
    let refused = |form: &[u8]| Hmac::restore(form).unwrap_err();
    assert_eq!(refused(&[]), Refusal::Form);
    assert_eq!(refused(&[0; 3]), Refusal::Form);
    assert_eq!(refused(&[0; 4]), Refusal::Width);

    for (width, other, len, old_len) in [
        (224, 256, 276, 268),
        (256, 224, 276, 268),
        (384, 512, 532, 524),
        (512, 384, 532, 524),
    ] {
        let mut keyed = Hmac::open(width, b"a key").unwrap();
        keyed.feed_bytes(b"a reading").unwrap();
        let form = keyed.store().to_vec();
        assert_eq!(form.len(), len);
        let foreign = Hmac::open(other, b"a key").unwrap().store().to_vec();
        let short = Hash::open(width).unwrap().store().to_vec();
        let today = (form.clone(), foreign.clone(), short.clone());
        let old = (
            old_keyed_form(&form),
            old_keyed_form(&foreign),
            old_form(&short),
        );
        assert_eq!(old.0.len(), old_len);
        for (form, foreign, short) in [&today, &old] {
            let len = form.len();
            assert!(Hmac::restore(form).is_ok());
            assert_eq!(refused(&form[..len - 1]), Refusal::Form);
            assert_eq!(refused(&form[..len / 2]), Refusal::Form);
            assert_eq!(refused(&[&form[..], &[0]].concat()), Refusal::Form);
            assert_eq!(refused(&[0; 600]), Refusal::Width);
            for last in [len / 2 - 1, len - 1] {
                let mut damaged = form.clone();
                damaged[last] = 1;
                assert_eq!(refused(&damaged), Refusal::Tail);
                damaged[len / 2] ^= 1;
                let first = if last == len - 1 {
                    Refusal::Width
                } else {
                    Refusal::Tail
                };
                assert_eq!(refused(&damaged), first);
            }
            let (inner, outer) = form.split_at(len / 2);
            assert_eq!(refused(&[outer, inner].concat()), Refusal::Hash);
            let (_, foreign) = foreign.split_at(len / 2);
            assert_eq!(refused(&[inner, foreign].concat()), Refusal::Hash);
            assert_eq!(refused(&[short, outer].concat()), Refusal::Hash);
            assert_eq!(refused(&[inner, short].concat()), Refusal::Hash);
        }
        // One half old and the other not: neither has its size then.
        for (front, back) in [(&today.0, &old.0), (&old.0, &today.0)] {
            let mixed = [&front[..front.len() / 2], &back[back.len() / 2..]].concat();
            assert_eq!(refused(&mixed), Refusal::Form);
        }

        assert_eq!(keyed.feed(&[0xff], 9), Err(Refusal::Count));
        assert_eq!(keyed.store(), form);
        let mut clean = keyed.clone();
        assert_eq!(keyed.feed(&[0xff], 7), clean.feed(&[0xfe], 7));
        assert_eq!(keyed.store(), clean.store());
    }
}

const COUNTS: [u64; 11] = [0, 1, 7, 8, 9, 511, 512, 513, 1023, 1024, 1025];
const TAILS: [u64; 4] = [0, 3, 8, 511];

/// Bytes without a pattern.
struct Bytes(u32);

impl Bytes {
    fn next(&mut self) -> u8 {
        self.0 = self.0.wrapping_mul(1_664_525).wrapping_add(1_013_904_223);
        (self.0 >> 24) as u8
    }

    /// A message with zeros after its last bit.
    fn message(&mut self, bits: u64) -> Vec<u8> {
        let data: Vec<u8> = (0..bits.div_ceil(8)).map(|_| self.next()).collect();
        piece_of(&data, 0, bits)
    }

    /// The same message with other bits after its last one, and so many bytes behind its last byte.
    fn soiled(&mut self, clean: &[u8], bits: u64, behind: usize) -> Vec<u8> {
        let mut dirty = clean.to_vec();
        if bits % 8 > 0 {
            let past = 0xff >> (bits % 8);
            *dirty.last_mut().unwrap() |= self.next() & past | 1;
        }
        dirty.extend((0..behind).map(|_| self.next() | 1));
        dirty
    }
}

/// The digests of appendix A, with ones and with other bits after the last one of the message.
#[test]
fn appendix_a_digests_with_bits_past_the_count() {
    let mut bytes = Bytes(1);
    for m in messages() {
        for behind in [0, 1, 300] {
            let mut ones = m.data.clone();
            if m.bits % 8 > 0 {
                *ones.last_mut().unwrap() |= 0xff >> (m.bits % 8);
            }
            ones.resize(ones.len() + behind, 0xff);
            for dirty in [ones, bytes.soiled(&m.data, m.bits, behind)] {
                assert_eq!(hash(m.width, &dirty, m.bits).unwrap().to_string(), m.digest);
                let mut open = Hash::open(m.width).unwrap();
                open.feed(&dirty, m.bits).unwrap();
                assert_eq!(open.take().digest.to_string(), m.digest);
                let tag = hmac(m.width, b"a key", &dirty, m.bits).unwrap();
                assert_eq!(tag.to_vec(), formula(m.width, b"a key", &m.data, m.bits));
            }
        }
    }
}

#[test]
fn bits_past_the_count_leave_no_trace() {
    let mut bytes = Bytes(2);
    for width in WIDTHS {
        let with_bytes = |count| [(count, 0), (count, 200)];
        for (count, behind) in COUNTS.into_iter().flat_map(with_bytes) {
            let clean = bytes.message(count);
            let dirty = bytes.soiled(&clean, count, behind);
            assert_eq!(hash(width, &dirty, count), hash(width, &clean, count));
            assert_eq!(
                hmac(width, b"a key", &dirty, count).unwrap().to_vec(),
                formula(width, b"a key", &clean, count)
            );
            for tail in TAILS {
                let front = bytes.message(tail);
                let mut open = Hash::open(width).unwrap();
                open.feed(&bytes.soiled(&front, tail, behind), tail)
                    .unwrap();
                let mut same = Hash::open(width).unwrap();
                same.feed(&front, tail).unwrap();
                assert_eq!(open, same);
                assert_eq!(open.feed(&dirty, count), same.feed(&clean, count));
                assert_eq!(open.store(), same.store());
                assert_eq!(open.take(), same.take());

                let mut keyed = Hmac::open(width, b"a key").unwrap();
                keyed
                    .feed(&bytes.soiled(&front, tail, behind), tail)
                    .unwrap();
                let mut same = Hmac::open(width, b"a key").unwrap();
                same.feed(&front, tail).unwrap();
                assert_eq!(keyed.feed(&dirty, count), same.feed(&clean, count));
                assert_eq!(keyed.store(), same.store());
                let tag = same.take().tag.to_vec();
                assert_eq!(keyed.take().tag.to_vec(), tag);
                assert!(keyed.check(&tag));
                assert!(!keyed.check(&tag[1..]));
            }
        }
    }
}

#[test]
fn comparison_ignores_bits_past_the_counts() {
    let mut bytes = Bytes(3);
    for width in WIDTHS {
        for count in COUNTS {
            let clean = bytes.message(count);
            for behind in [0, 1, 200] {
                let a = bytes.soiled(&clean, count, behind);
                let b = bytes.soiled(&clean, count, 200 - behind);
                for (a, b) in [(&a, &clean), (&clean, &b), (&a, &b), (&b, &a)] {
                    assert_eq!(compare(width, a, count, b, count), Ok(Verdict::Same));
                }
                let mut other = b.clone();
                if count > 0 {
                    other[(count as usize - 1) / 8] ^= 0x80 >> ((count - 1) % 8);
                    for (a, b) in [(&a, &other), (&other, &a), (&clean, &other)] {
                        assert_eq!(compare(width, a, count, b, count), Ok(Verdict::Apart));
                    }
                    let longer = compare(width, &b, count, &b, count - 1);
                    assert_eq!(longer, Ok(Verdict::Apart));
                }
            }
        }
    }
}

/// PART of every count, with other bits in the rest of its 32 bytes.
#[test]
fn part_ignores_bits_past_the_count() {
    let mut bytes = Bytes(4);
    for width in WIDTHS {
        for count in 0..=255 {
            let clean = bytes.message(u64::from(count));
            let dirty = bytes.soiled(&clean, u64::from(count), 32 - clean.len());
            let [low, high] = width.to_le_bytes();
            let data = [&[1, low, high, 3, count][..], &dirty, &[4, 5]].concat();
            let mut out = vec![0xaa; usize::from(width / 8) + 1];
            assert_eq!(tape(&data, &mut out), Ok(1));
            assert_eq!(out.pop(), Some(0xaa));
            let digest = hash(width, &clean, u64::from(count)).unwrap();
            assert_eq!(out, digest.as_bytes());
        }
    }
}

/// Each bit past the tail of a stored form, also in either half of a keyed one, and in old forms.
#[test]
fn bits_past_a_tail_are_still_refused() {
    for width in WIDTHS {
        for tail in TAILS {
            let mut open = Hash::open(width).unwrap();
            open.feed(&[0xa5; 64], tail).unwrap();
            let mut keyed = Hmac::open(width, b"a key").unwrap();
            keyed.feed(&[0xa5; 64], tail).unwrap();
            let size = block_bits(width) as usize / 8;
            for (form, both) in [
                (open.store().to_vec(), keyed.store().to_vec()),
                (old_form(open.store()), old_keyed_form(keyed.store())),
            ] {
                let half = form.len();
                assert!(Hash::restore(&form).is_ok() && Hmac::restore(&both).is_ok());
                for place in tail as usize..8 * size {
                    let (at, bit) = (half - size + place / 8, 0x80 >> (place % 8));
                    let mut damaged = form.clone();
                    damaged[at] |= bit;
                    assert_eq!(Hash::restore(&damaged).unwrap_err(), Refusal::Tail);
                    let mut damaged = both.clone();
                    damaged[at] |= bit;
                    assert_eq!(Hmac::restore(&damaged).unwrap_err(), Refusal::Tail);
                    let mut damaged = both.clone();
                    damaged[half + at] |= bit;
                    assert_eq!(Hmac::restore(&damaged).unwrap_err(), Refusal::Tail);
                }
            }
        }
    }
}

/// A clone goes its own way, and `Debug` shows no byte of the form.
#[test]
fn clones_and_text_of_keyed_hashes() {
    let mut keyed = Hmac::open(256, b"a key").unwrap();
    keyed.feed(&[0xa0], 3).unwrap();
    let mut other = keyed.clone();
    assert_eq!(other.store(), keyed.store());
    other.feed_bytes(b"more").unwrap();
    assert_eq!(keyed.take().tag, hmac(256, b"a key", &[0xa0], 3).unwrap());
    assert_ne!(keyed.take().tag, other.take().tag);
    drop(other);
    assert_eq!(format!("{keyed:?}"), "Hmac { width: 256, bits: 3, .. }");
}

/// The lines of an entry by the formatting of Rust's own library.
fn lines(number: u64, width: u16, digits: &str) -> String {
    let (front, back) = digits.split_at(digits.len().min(64));
    let first = format!("{number:>6} {width:>3} {front:<64}\n");
    if back.is_empty() {
        return first;
    }
    format!("{first}{:11}{back:<64}\n", "")
}

/// Lines of tests/reference/page_ref.py.
#[test]
fn entries_of_the_reference() {
    for (number, width, expected) in [
        (
            0,
            224,
            "     0 224 000102030405060708090a0b0c0d0e0f101112131415161718191a1b        \n",
        ),
        (
            99_999,
            384,
            " 99999 384 000102030405060708090a0b0c0d0e0f101112131415161718191a1b1c1d1e1f\n           \
             202122232425262728292a2b2c2d2e2f                                \n",
        ),
    ] {
        let digest: Vec<u8> = (0..(width / 8) as u8).collect();
        assert_eq!(page_entry(number, width, &digest).unwrap(), expected);
        let digits: String = digest.iter().map(|byte| format!("{byte:02x}")).collect();
        assert_eq!(lines(number, width, &digits), expected);
    }
}

/// Every digest of appendix A under every kind of number, one after the other.
#[test]
fn a_page_is_the_entries_in_turn() {
    let (mut page, mut expected) = (String::new(), String::new());
    for m in messages() {
        for number in [0, 9, 10, 99_999, 100_000, NUMBER_MAX] {
            let digest = hash(m.width, &m.data, m.bits).unwrap();
            let entry = page_entry(number, m.width, digest.as_bytes()).unwrap();
            assert_eq!(entry.len(), if m.width > 256 { 152 } else { 76 });
            page += &entry;
            expected += &lines(number, m.width, &m.digest);
        }
    }
    assert_eq!(page, expected);
    assert!(page.lines().all(|line| line.len() == 75));
    assert_eq!(page.len(), 76 * page.lines().count());
}

/// 1, 7 and 14, in this order; there is always room.
#[test]
fn refusals_of_entries() {
    for width in WIDTHS {
        let len = usize::from(width / 8);
        let digest = vec![0xa5; len + 1];
        assert!(page_entry(NUMBER_MAX, width, &digest[..len]).is_ok());
        for number in [NUMBER_MAX + 1, 1 << 32, u64::MAX] {
            let refused = page_entry(number, width, &digest[..len]);
            assert_eq!(refused, Err(Refusal::Entry));
        }
        for number in [0, NUMBER_MAX + 1] {
            for wrong in [0, len - 1, len + 1] {
                let refused = page_entry(number, width, &digest[..wrong]);
                assert_eq!(refused, Err(Refusal::Block));
            }
            for wrong in [0, len - 1, len] {
                let refused = page_entry(number, width + 1, &digest[..wrong]);
                assert_eq!(refused, Err(Refusal::Width));
            }
        }
    }
}

/// The quote of 8 bytes, reckoned in numbers that hold 100 N.
fn reckoned(head: &[u8]) -> String {
    let number = u64::from_be_bytes(head.try_into().unwrap());
    let check = 98 - 100 * u128::from(number) % 97;
    format!("{number:016x}{check:02}")
}

/// Quotes of tests/reference/quote_ref.py.
#[test]
fn quotes_of_the_reference() {
    for (number, expected) in [
        (0, "000000000000000098"),
        (1, "000000000000000195"),
        (31, "000000000000001f05"),
        (32, "000000000000002002"),
        (96, "000000000000006004"),
        (97, "000000000000006198"),
        (0x0123_4567_89ab_cdef, "0123456789abcdef81"),
        (u64::MAX, "ffffffffffffffff15"),
    ] {
        assert_eq!(reckoned(&number.to_be_bytes()), expected);
        assert!(quote_check(expected.as_bytes()));
        for width in WIDTHS {
            for rest in [0, 0xa5, 0xff] {
                let mut digest = vec![rest; usize::from(width / 8)];
                digest[..8].copy_from_slice(&number.to_be_bytes());
                assert_eq!(quote(width, &digest).unwrap(), expected);
            }
        }
    }
}

/// The digests of appendix A and many other bytes: each quote is right.
#[test]
fn quotes_of_digests_are_right() {
    for m in messages() {
        let digest = hash(m.width, &m.data, m.bits).unwrap();
        let expected = reckoned(&from_hex(&m.digest[..16]));
        assert_eq!(digest.quote(), expected);
        assert_eq!(quote(m.width, digest.as_bytes()), Ok(expected));
        assert!(quote_check(digest.quote().as_bytes()));
    }
    let mut bytes = Bytes(3);
    for k in 0..4000 {
        let width = WIDTHS[k % 4];
        let digest = bytes.message(u64::from(width));
        let found = quote(width, &digest).unwrap();
        assert_eq!(found, reckoned(&digest[..8]));
        assert!(quote_check(found.as_bytes()));
    }
}

/// Every other byte at every place, unequal neighbours exchanged, all check digits.
#[test]
fn slips_make_a_quote_wrong() {
    let mut bytes = Bytes(4);
    let mut heads: Vec<Vec<u8>> = (0..8).map(|_| bytes.message(64)).collect();
    heads.extend([
        vec![0; 8],
        vec![0xff; 8],
        vec![0x11, 0x22, 0x12, 0, 0, 0, 0, 32],
    ]);
    for head in heads {
        let right = reckoned(&head).into_bytes();
        for place in 0..right.len() {
            for byte in 0..=255 {
                let mut other = right.clone();
                other[place] = byte;
                assert_eq!(quote_check(&other), other == right);
            }
        }
        for place in 0..15 {
            let mut other = right.clone();
            other.swap(place, place + 1);
            assert_eq!(quote_check(&other), other == right);
        }
        let checks = (0..100).map(|check| format!("{check:02}").into_bytes());
        let found: Vec<Vec<u8>> = checks
            .map(|check| [&right[..16], &check].concat())
            .filter(|other| quote_check(other))
            .collect();
        assert_eq!(found, [right]);
    }
}

#[test]
fn other_kinds_are_no_quotes() {
    for head in [[0x5a; 8], [0xab; 8], [0; 8]] {
        let right = reckoned(&head);
        assert!(quote_check(right.as_bytes()));
        for len in 0..18 {
            assert!(!quote_check(&right.as_bytes()[..len]));
            assert!(!quote_check(&right.as_bytes()[18 - len..]));
        }
        for more in ["0", " ", "\n", "\0", &right] {
            assert!(!quote_check(format!("{right}{more}").as_bytes()));
            assert!(!quote_check(format!("{more}{right}").as_bytes()));
        }
        let capitals = right.to_uppercase();
        assert_eq!(quote_check(capitals.as_bytes()), capitals == right);
    }
    assert!(!quote_check(b"-"));
}

/// 1, then 7; there is always room.
#[test]
fn refusals_of_quotes() {
    for width in WIDTHS {
        let len = usize::from(width / 8);
        let digest = vec![0xa5; len + 1];
        assert!(quote(width, &digest[..len]).is_ok());
        for wrong in [0, 8, len - 1, len + 1] {
            assert_eq!(quote(width, &digest[..wrong]), Err(Refusal::Block));
        }
        for wrong in [0, 8, len - 1, len] {
            assert_eq!(quote(width + 1, &digest[..wrong]), Err(Refusal::Width));
        }
    }
    assert_eq!(quote(64, &[0; 8]), Err(Refusal::Width));
}

fn block_bits(width: u16) -> u64 {
    if width > 256 {
        1024
    } else {
        512
    }
}

/// The place of a state in an index.
fn state_at(width: u16, place: u64) -> std::ops::Range<usize> {
    let size = block_bits(width) as usize / 8;
    let at = 10 + size * place as usize;
    at..at + size
}

/// A fresh run by an open hash: its state before each full block whose number is a multiple of 16.
fn by_states(width: u16, data: &[u8], bits: u64) -> Indexed {
    let size = block_bits(width);
    let mut open = Hash::open(width).unwrap();
    let mut kept = [width.to_le_bytes().to_vec(), bits.to_le_bytes().to_vec()].concat();
    for number in 0..bits / size {
        if number % 16 == 0 {
            kept.extend(&open.store()[state_at(width, 0)]);
        }
        open.feed(&piece_of(data, number * size, size), size)
            .unwrap();
    }
    let rest = bits % size;
    open.feed(&piece_of(data, bits - rest, rest), rest).unwrap();
    Indexed {
        index: kept,
        digest: open.take().digest,
        blocks: bits.div_ceil(size) + 1,
    }
}

/// The blocks before the start of a correction.
fn skipped(width: u16, bits: u64, block: u64) -> u64 {
    let states = (bits / block_bits(width)).div_ceil(16);
    16 * (block / 16).min(states.saturating_sub(1))
}

/// Records of 0 to 34 blocks, with every kind of end.
fn records(width: u16, bytes: &mut Bytes) -> Vec<(u64, Vec<u8>)> {
    let size = block_bits(width);
    [0, 1, 2, 15, 16, 17, 31, 32, 33]
        .into_iter()
        .flat_map(|blocks| [0, 1, 7, 8, 9, size - 1].map(|end| blocks * size + end))
        .map(|bits| (bits, bytes.message(bits)))
        .collect()
}

/// Digests and compressions of tests/reference/index_ref.py.
#[test]
fn index_of_the_reference() {
    let mut record = vec![0; 10_000];
    let before = index(256, &record, 80_000).unwrap();
    record[9876] = 37;
    let after = reindex(256, &record, 80_000, &before.index, 9876 / 64).unwrap();
    for (found, blocks, digest) in [
        (
            &before,
            158,
            "2c3b772e613e99535e2b3daa6446e4201c7b1f160729a3f064b0a0ee88b28270",
        ),
        (
            &after,
            14,
            "b1fee4b433cea2bbf912da12131fc6e126c80f2d79b0f235477a8b8a0a5ec476",
        ),
    ] {
        assert_eq!(found.index.len(), 650);
        assert_eq!(found.blocks, blocks);
        assert_eq!(found.digest.to_string(), digest);
    }
    assert_eq!(before.index, by_states(256, &[0; 10_000], 80_000).index);
    assert_eq!(after.index, by_states(256, &record, 80_000).index);
}

#[test]
fn indexes_and_corrections_from_every_block() {
    let mut bytes = Bytes(6);
    for width in WIDTHS {
        let size = block_bits(width);
        for (bits, data) in records(width, &mut bytes) {
            let old = index(width, &data, bits).unwrap();
            assert_eq!(old, by_states(width, &data, bits));
            assert_eq!(Ok(old.digest), hash(width, &data, bits));
            for block in 0..=bits.div_ceil(size) {
                let mut new = data.clone();
                if block * size < bits {
                    new[(block * size / 8) as usize] ^= 0x80;
                }
                let fresh = index(width, &new, bits).unwrap();
                let found = reindex(width, &new, bits, &old.index, block).unwrap();
                assert_eq!(found.blocks + skipped(width, bits, block), fresh.blocks);
                assert_eq!((found.index, found.digest), (fresh.index, fresh.digest));
                let dirty = bytes.soiled(&new, bits, (block % 3) as usize);
                let same = reindex(width, &dirty, bits, &old.index, block).unwrap();
                assert_eq!((same.digest, same.blocks), (fresh.digest, found.blocks));
                assert_eq!(index(width, &dirty, bits).unwrap().digest, fresh.digest);
            }
        }
    }
}

/// What the states of an index give: one before the start is carried, that at the start is used, those
/// behind it are made anew. A number behind the correction gives the digest that was.
#[test]
fn index_states_are_taken_as_they_are() {
    let mut bytes = Bytes(7);
    for width in WIDTHS {
        let bits = 34 * block_bits(width) + 5;
        let mut data = bytes.message(bits);
        let old = index(width, &data, bits).unwrap();
        for block in [0, 15, 16, 31, 32, 35] {
            let start = skipped(width, bits, block) / 16;
            for place in 0..3 {
                let mut forged = old.index.clone();
                forged[state_at(width, place).start] ^= 1;
                let found = reindex(width, &data, bits, &forged, block).unwrap();
                assert_eq!(found.digest == old.digest, place != start);
                let carried = found.index[state_at(width, place)] == forged[state_at(width, place)];
                assert_eq!(carried, place <= start);
            }
        }
        data[0] ^= 1;
        let late = reindex(width, &data, bits, &old.index, 16).unwrap();
        assert_eq!((late.digest, late.index), (old.digest, old.index.clone()));
        let right = reindex(width, &data, bits, &old.index, 15).unwrap();
        assert_eq!(Ok(right.digest), hash(width, &data, bits));
    }
}

/// 1, 2 and 15, in this order; there is always room, and none is made for a count that no message has.
#[test]
fn refusals_of_indexes() {
    for width in WIDTHS {
        let size = block_bits(width);
        let bits = 17 * size + 3;
        let last = 18;
        let data = vec![0xa5; bits.div_ceil(8) as usize];
        let old = index(width, &data, bits).unwrap().index;
        let refused = |width, bits, old: &[u8], block| {
            reindex(width, &data, bits, old, block).map(|found| found.blocks)
        };
        assert_eq!(refused(width, bits, &old, last), Ok(3));
        for block in [last + 1, 1 << 32, u64::MAX] {
            assert_eq!(refused(width, bits, &old, block), Err(Refusal::Index));
        }
        for len in (0..old.len()).chain([old.len() + 1, old.len() + size as usize / 8]) {
            let mut wrong = [&old[..], &old[..]].concat();
            wrong.truncate(len);
            assert_eq!(refused(width, bits, &wrong, 0), Err(Refusal::Index));
        }
        for place in 0..10 {
            let mut wrong = old.clone();
            wrong[place] ^= 1;
            assert_eq!(refused(width, bits, &wrong, 0), Err(Refusal::Index));
        }
        // An index with 4 length bytes.
        let short = [&old[..6], &old[10..]].concat();
        assert_eq!(refused(width, bits, &short, 0), Err(Refusal::Index));
        assert_eq!(refused(width, bits - 1, &old, 0), Err(Refusal::Index));
        for count in [8 * data.len() as u64 + 1, 1 << 32, u64::MAX] {
            assert_eq!(index(width, &data, count), Err(Refusal::Count));
            assert_eq!(refused(width, count, &old[1..], 99), Err(Refusal::Count));
            assert_eq!(index(width + 1, &data, count), Err(Refusal::Width));
            assert_eq!(
                refused(width + 1, count, &old[1..], 99),
                Err(Refusal::Width)
            );
        }
    }
    let small = index(224, &[0; 64], 512).unwrap().index;
    assert_eq!(reindex(256, &[0; 64], 512, &small, 0), Err(Refusal::Index));
    let large = index(384, &[0; 128], 1024).unwrap().index;
    assert_eq!(
        reindex(512, &[0; 128], 1024, &large, 0),
        Err(Refusal::Index)
    );
}

#[test]
fn refusals_have_numbers_and_words() {
    assert_eq!(Refusal::Width.number(), 1);
    assert_eq!(Refusal::Spare.number(), 3);
    assert!(Refusal::Spare.to_string().starts_with("retired: "));
    assert_eq!(Refusal::Hash.number(), 5);
    assert_eq!(Refusal::Output.number(), 6);
    assert_eq!(Refusal::Order.number(), 12);
    assert_eq!(Refusal::Entry.number(), 14);
    assert_eq!(Refusal::Index.number(), 15);
    assert_eq!(
        Refusal::Output.to_string(),
        "the output, or an old form fed in place, is too short"
    );
}

#[test]
fn comparison_of_near_messages() {
    let a = vec![0x3c; 300];
    let mut b = a.clone();
    for width in WIDTHS {
        assert_eq!(compare(width, &a, 2400, &a, 2400), Ok(Verdict::Same));
        assert_eq!(compare(width, &a, 2400, &a, 2392), Ok(Verdict::Apart));
        b[299] ^= 4;
        assert_eq!(compare(width, &a, 2400, &b, 2400), Ok(Verdict::Apart));
        b[299] ^= 4;
    }
}

/// The tape `01 00 01`, `03 01 80` and 31 bytes `00`, then `01 00 01`.
#[test]
fn worked_tape() {
    let mut data = vec![1, 0, 1, 3, 1, 0x80];
    data.extend([0; 31]);
    data.extend([1, 0, 1]);
    let mut out = [0xaa; 40];
    let refused = tape(&data, &mut out).unwrap_err();
    assert_eq!(
        (refused.refusal, refused.place, refused.count),
        (Refusal::Order, 37, 0)
    );
    assert_eq!(out, [0xaa; 40]);
    assert!(refused.to_string().starts_with("refused 12 at 37: "));
}

#[test]
fn tape_without_room() {
    let data = [1, 0, 1, 4, 1, 0, 2, 4, 5];
    let mut out = [0; 96];
    assert_eq!(tape(&data, &mut out), Ok(2));
    let refused = tape(&data, &mut out[..95]).unwrap_err();
    assert_eq!(
        (refused.refusal, refused.place, refused.count),
        (Refusal::Output, 7, 1)
    );
}

#[test]
fn digests_as_bytes_and_as_text() {
    for m in messages() {
        let digest = hash(m.width, &m.data, m.bits).unwrap();
        assert_eq!(digest.to_vec(), from_hex(&m.digest));
        assert_eq!(digest.as_bytes(), digest.as_ref());
        assert_eq!(digest.width(), m.width);
        assert_eq!(format!("{digest:x}"), m.digest);
        assert_eq!(format!("{digest:#x}"), format!("0x{}", m.digest));
        assert_eq!(format!("{digest:.8}"), m.digest[..8]);
        assert_eq!(format!("{digest:?}"), format!("Digest({})", m.digest));
    }
}

#[test]
fn whole_bytes() {
    let data: Vec<u8> = (0..1000).map(|k| (k * 7) as u8).collect();
    for width in WIDTHS {
        for size in [0, 1, 63, 64, 65, 128, 1000] {
            let mut open = Hash::open(width).unwrap();
            open.feed(&[0xa0], 3).unwrap();
            let mut same = open.clone();
            assert_eq!(
                open.feed_bytes(&data[..size]),
                same.feed(&data[..size], 8 * size as u64)
            );
            assert_eq!(open, same);
            assert_eq!(
                hash_bytes(width, &data[..size]),
                hash(width, &data[..size], 8 * size as u64)
            );
        }
    }
    assert_eq!(hash_bytes(160, b""), Err(Refusal::Width));
}

/// What the header calls a refusal is what its number is called here.
#[test]
fn texts_are_those_of_the_header() {
    let header = include_str!("../../include/simd.h");
    let mut found = 0;
    for number in 1..=15 {
        let define = header
            .lines()
            .find(|line| {
                let mut field = line.split_whitespace();
                field.next() == Some("#define")
                    && field
                        .next()
                        .is_some_and(|name| name.starts_with("SIMD_REFUSED_"))
                    && field.next() == Some(&number.to_string())
            })
            .unwrap();
        let name = define.split_whitespace().nth(1).unwrap();
        let case = header
            .split_once(&format!("case {name}: return \""))
            .unwrap()
            .1;
        let text = case.split_once('"').unwrap().0;
        if let Some(refusal) = Refusal::ALL
            .iter()
            .find(|refusal| refusal.number() == number)
        {
            assert_eq!(refusal.to_string(), text);
            found += 1;
        }
    }
    // 13 is the program's.
    assert_eq!((found, Refusal::ALL.len()), (14, 14));
}
