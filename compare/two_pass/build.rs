//! Compiles `two_pass.c` into an archive, by the C compiler alone. CC, AR and CFLAGS are as usual.

use std::env;
use std::path::PathBuf;
use std::process::Command;

const SOURCE: &str = "src/two_pass.c";

fn main() {
    println!("cargo:rerun-if-changed={SOURCE}");
    let out = PathBuf::from(env::var_os("OUT_DIR").expect("cargo sets OUT_DIR"));
    let object = out.join("two_pass.o");
    let archive = out.join("libtwo_pass.a");
    // Optimised whatever the profile: it is there for its time.
    run(Command::new(setting("CC", "cc"))
        .args(["-std=c99", "-O3", "-fPIC", "-Wall", "-Wextra"])
        .args(setting("CFLAGS", "").split_whitespace())
        .args(["-c", SOURCE, "-o"])
        .arg(&object));
    run(Command::new(setting("AR", "ar"))
        .arg("rcs")
        .arg(&archive)
        .arg(&object));
    println!("cargo:rustc-link-search=native={}", out.display());
    println!("cargo:rustc-link-lib=static=two_pass");
}

/// A variable of the environment, or what is used without it.
fn setting(name: &str, usual: &str) -> String {
    println!("cargo:rerun-if-env-changed={name}");
    env::var(name).unwrap_or(usual.to_string())
}

fn run(command: &mut Command) {
    match command.status() {
        Ok(status) if status.success() => {}
        Ok(status) => panic!("{command:?}: {status}"),
        Err(error) => panic!("{command:?}: {error}"),
    }
}
