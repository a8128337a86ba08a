//! Links the library's archive: the one in the folder that SIMD_LIB_DIR names, else the one that
//! `tools/build simd_c` writes in the repository.

use std::env;
use std::ffi::OsString;
use std::path::{Path, PathBuf};

const VARIABLE: &str = "SIMD_LIB_DIR";

/// The archive's names, without `lib` and `.a`: as it is built, and as it is installed.
const NAMES: [&str; 2] = ["simd_c", "simd"];

/// The archive's folder and name, or why there is none.
pub fn archive(
    named: Option<OsString>,
    crate_dir: &Path,
) -> Result<(PathBuf, &'static str), String> {
    let folder = match named {
        Some(folder) => PathBuf::from(folder),
        None => crate_dir.join("../target/staticlib"),
    };
    // Cargo runs this program in the crate's folder, not where the variable was set.
    if folder.is_relative() {
        return Err(format!(
            "{VARIABLE}={}: not an absolute path",
            folder.display()
        ));
    }
    match NAMES
        .into_iter()
        .find(|name| folder.join(format!("lib{name}.a")).is_file())
    {
        Some(name) => Ok((folder, name)),
        None => Err(format!(
            "no libsimd_c.a or libsimd.a in {}: run `make` or `tools/build simd_c`, or name the \
             archive's folder by {VARIABLE}",
            folder.display()
        )),
    }
}

fn main() {
    println!("cargo:rerun-if-env-changed={VARIABLE}");
    let crate_dir = env::var_os("CARGO_MANIFEST_DIR").expect("set by cargo");
    match archive(env::var_os(VARIABLE), Path::new(&crate_dir)) {
        Ok((folder, name)) => {
            let folder = folder.display();
            println!("cargo:rerun-if-changed={folder}/lib{name}.a");
            println!("cargo:rustc-link-search=native={folder}");
            println!("cargo:rustc-link-lib=static={name}");
        }
        Err(reason) => {
            eprintln!("{reason}");
            std::process::exit(1);
        }
    }
}
