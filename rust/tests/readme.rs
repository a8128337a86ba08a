//! README's fragment in Rust is the one below, which is run.

use simd::Refusal;

#[rustfmt::skip]
fn fragment() -> Result<(), Refusal> {
// README
let digest = simd::hash_bytes(256, b"abc")?;
println!("{digest}");                       // lowercase hexadecimal; digest.to_vec() has its bytes

let mut hash = simd::Hash::open(512)?;      // also a std::io::Write
hash.feed_bytes(b"a reading")?;
hash.feed(&[0b1010_0000], 3)?;              // and three bits more
println!("{}", hash.take().digest);

let tag = simd::hmac_bytes(256, b"group", b"abc")?;         // a keyed seal
let mut keyed = simd::Hmac::open(256, b"group")?;           // the same in pieces, also a std::io::Write
keyed.feed_bytes(b"abc")?;
println!("{tag} {}", keyed.check(tag.as_bytes()));          // true: exactly the whole tag

print!("{}", simd::page_entry(9, 256, digest.as_bytes())?); // an entry of a page, a line or two

let quote = digest.quote();                                 // as seal prints it
println!("{quote} {}", simd::quote_check(quote.as_bytes()));    // true: its check digits are right

let mut record = vec![0; 10_000];                           // a record, and its index beside it
let old = simd::index(256, &record, 80_000)?;
record[9876] = 37;                                          // corrected in block 9876 / 64
let new = simd::reindex(256, &record, 80_000, &old.index, 9876 / 64)?;
println!("{} {}", new.digest, new.blocks);                  // 14 of the 158 blocks compressed again
// end
    Ok(())
}

#[test]
fn fragment_is_readmes() {
    let readme = include_str!("../../README.md");
    let shown = readme.split_once("```rust\n").unwrap().1;
    let shown = shown.split_once("```\n").unwrap().0;
    let run = include_str!("readme.rs")
        .split_once("// README\n")
        .unwrap()
        .1;
    assert_eq!(run.split_once("// end\n").unwrap().0, shown);
    assert_eq!(fragment(), Ok(()));
}
