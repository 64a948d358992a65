//! Links libabi.a, from BAVZHRONO_LIB_DIR or from where `tools/archive.sh` writes it.

use std::env;
use std::path::{Path, PathBuf};

fn main() {
    println!("cargo:rerun-if-env-changed=BAVZHRONO_LIB_DIR");
    // Relative to the crate, which is where cargo runs this.
    let directory = match env::var_os("BAVZHRONO_LIB_DIR") {
        Some(directory) => PathBuf::from(directory),
        None => PathBuf::from("../../target/staticlib"),
    };
    let directory = holder_of_archive(&directory);
    println!("cargo:rustc-link-search=native={}", directory.display());
    println!("cargo:rustc-link-lib=static=abi");
    println!("cargo:rerun-if-changed={}/libabi.a", directory.display());
}

/// The absolute path of a directory that has the archive: the linker runs elsewhere.
fn holder_of_archive(directory: &Path) -> PathBuf {
    match directory.canonicalize() {
        Ok(directory) if directory.join("libabi.a").is_file() => directory,
        _ => panic!(
            "no libabi.a in {}: write it with `tools/archive.sh`, or set BAVZHRONO_LIB_DIR",
            directory.display()
        ),
    }
}
