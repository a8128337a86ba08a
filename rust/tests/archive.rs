//! Where the build script looks for the archive.

#[allow(dead_code)]
#[path = "../build.rs"]
mod build;

use std::fs;
use std::path::Path;

use build::archive;

#[test]
fn folder_and_name_of_the_archive() {
    let crate_dir = Path::new(env!("CARGO_MANIFEST_DIR"));
    let named = std::env::temp_dir().join(format!("simd-archive-{}", std::process::id()));
    fs::create_dir(&named).unwrap();
    let find = || archive(Some(named.clone().into()), crate_dir);
    let missing = find();
    fs::write(named.join("libsimd.a"), b"").unwrap();
    let installed = find();
    fs::write(named.join("libsimd_c.a"), b"").unwrap();
    let built = find();
    fs::remove_dir_all(&named).unwrap();

    let start = format!("no libsimd_c.a or libsimd.a in {}: ", named.display());
    assert!(missing.unwrap_err().starts_with(&start));
    assert_eq!(installed, Ok((named.clone(), "simd")));
    assert_eq!(built, Ok((named.clone(), "simd_c")));
    assert_eq!(
        archive(Some("target/staticlib".into()), crate_dir).unwrap_err(),
        "SIMD_LIB_DIR=target/staticlib: not an absolute path"
    );
    // Without the variable it is the repository's, if that has been built.
    if let Ok((folder, name)) = archive(None, crate_dir) {
        assert!(folder.ends_with("target/staticlib"));
        assert_eq!(name, "simd_c");
    }
}
