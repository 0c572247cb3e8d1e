//! Says where libtezvorup.a is. That is the folder that TEZVORUP_LIB_DIR names, as `./install` fills one; else the archive is
//! made with `rt` by the script `archive` of the repository, which does nothing where it is no older than what it is made of.
use std::path::{Path, PathBuf};
use std::process::Command;
use std::{env, fs};

const ARCHIVE: &str = "libtezvorup.a";

fn variable(name: &str) -> String {
    env::var(name).unwrap_or_else(|_| panic!("cargo sets {}", name))
}

/// The archive of this repository, copied to where cargo keeps what it builds: so it stays while nothing changes.
fn made() -> PathBuf {
    let root = Path::new(&variable("CARGO_MANIFEST_DIR")).join("../..");
    for part in ["archive", "crates.txt", "crates"] {
        println!("cargo:rerun-if-changed={}", root.join(part).display());
    }
    let ran = Command::new(root.join("archive")).status();
    assert!(ran.map_or(false, |status| status.success()), "the library could not be made; run ./archive of the repository to see why");
    let folder = PathBuf::from(variable("OUT_DIR"));
    fs::copy(root.join("target/staticlib").join(ARCHIVE), folder.join(ARCHIVE)).expect("the archive was made");
    folder
}

/// The archive of a folder.
fn installed(folder: PathBuf) -> PathBuf {
    let archive = folder.join(ARCHIVE);
    assert!(archive.is_file(), "TEZVORUP_LIB_DIR names a folder without {}: {}", ARCHIVE, folder.display());
    println!("cargo:rerun-if-changed={}", archive.display());
    folder
}

fn main() {
    let target = (variable("CARGO_CFG_TARGET_ARCH"), variable("CARGO_CFG_TARGET_OS"));
    assert!(target == ("x86_64".into(), "linux".into()), "the library is for x86-64 Linux, and not for {} {}", target.0, target.1);
    println!("cargo:rerun-if-changed=build.rs");
    println!("cargo:rerun-if-env-changed=TEZVORUP_LIB_DIR");
    let folder = env::var_os("TEZVORUP_LIB_DIR").map_or_else(made, |folder| installed(folder.into()));
    println!("cargo:rustc-link-search=native={}", folder.display());
}
