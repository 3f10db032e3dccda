//! Builds the proved library with Rattle's toolchain and links it: `library.sh` proves every crate below capi, which takes some
//! minutes the first time, then makes the archive.
use std::path::Path;
use std::process::Command;

fn main() {
    let here = std::env::var("CARGO_MANIFEST_DIR").expect("cargo names the package's folder");
    let root = Path::new(&here).parent().expect("the package lies in the repository");
    if let Err(error) = Command::new("rt").arg("version").output() {
        println!("cargo::error=rt, Rattle's toolchain (rattle-kit-13f), can't be run: {error}");
        println!("cargo::error=It was looked for in PATH: {}", std::env::var("PATH").unwrap_or_default());
        println!("cargo::error=It proves the library that this crate links, which takes some minutes the first time.");
        return;
    }
    let made = Command::new("sh").arg("library.sh").current_dir(root).output().expect("a shell runs library.sh");
    if !made.status.success() {
        panic!(
            "library.sh failed:\n{}{}",
            String::from_utf8_lossy(&made.stdout),
            String::from_utf8_lossy(&made.stderr)
        );
    }
    println!("cargo:rustc-link-search=native={}", root.join("target/staticlib").display());
    println!("cargo:rustc-link-lib=static=capi");
    println!("cargo:rerun-if-changed={}", root.join("crates.txt").display());
    // a crate's files, but not out/, where rt keeps its work
    for krate in std::fs::read_dir(root.join("crates")).expect("crates/ can be read") {
        for part in ["src", "specs", "proofs"] {
            let folder = krate.as_ref().expect("crates/ can be read").path().join(part);
            if folder.exists() {
                println!("cargo:rerun-if-changed={}", folder.display());
            }
        }
    }
}
