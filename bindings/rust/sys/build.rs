//! Links the static library where YAWSIMBEL_LIB names it or the repository has built it. Without it the crate is still checked and documented.

use std::env;
use std::path::{Path, PathBuf};
use std::process::exit;

/// What the library is called.
const NAME: &str = "libyawsimbel.a";

fn main() {
    println!("cargo:rerun-if-env-changed=YAWSIMBEL_LIB");
    println!("cargo:rerun-if-changed=build.rs");
    match named().or_else(built) {
        Some(archive) => link(&archive),
        None => println!("cargo:warning=no program can be linked: YAWSIMBEL_LIB names no library, and none is built"),
    }
}

/// The archive that YAWSIMBEL_LIB names, itself or by its folder.
fn named() -> Option<PathBuf> {
    let place = PathBuf::from(env::var_os("YAWSIMBEL_LIB").filter(|place| !place.is_empty())?);
    if place.is_file() {
        return Some(place);
    }
    let inside = place.join(NAME);
    Some(if inside.is_file() { inside } else { refuse(&place) })
}

/// The archive for this processor that the repository has built. Where there is none, every build looks again.
fn built() -> Option<PathBuf> {
    let made = PathBuf::from(env::var_os("CARGO_MANIFEST_DIR")?).join("../../../target/staticlib");
    let processor = env::var("CARGO_CFG_TARGET_ARCH").ok()?;
    let archive = made.join(processor).join(NAME);
    if archive.is_file() {
        return Some(archive);
    }
    println!("cargo:rerun-if-changed={}", archive.display());
    None
}

fn link(archive: &Path) {
    let archive = archive.canonicalize().unwrap_or_else(|_| refuse(archive));
    let name = archive.file_name().and_then(|name| name.to_str()).unwrap_or_default();
    let name = name.strip_prefix("lib").and_then(|name| name.strip_suffix(".a")).unwrap_or_else(|| refuse(&archive));
    println!("cargo:rerun-if-changed={}", archive.display());
    if let Some(folder) = archive.parent() {
        println!("cargo:rustc-link-search=native={}", folder.display());
    }
    println!("cargo:rustc-link-lib=static={}", name);
}

/// Says what is wrong and what would be right.
fn refuse(place: &Path) -> ! {
    eprintln!("YAWSIMBEL_LIB: {} is no library libNAME.a, nor a folder with {}", place.display(), NAME);
    eprintln!("In the repository's root, build it and say where it is, or leave YAWSIMBEL_LIB unset:");
    eprintln!("    bindings/build $(uname -m)");
    eprintln!("    export YAWSIMBEL_LIB=\"$PWD/target/staticlib/$(uname -m)\"");
    exit(1)
}
