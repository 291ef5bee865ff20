// Says where libtholdrimash.a is, which src/raw.rs links. THOLDRIMASH_LIB names the folder that holds
// it, from this crate's folder if the path is relative; without it that is the repository's
// target/staticlib.
use std::ffi::OsString;
use std::path::PathBuf;
use std::{env, process};

const FOLDER: &str = "THOLDRIMASH_LIB";
const ARCHIVE: &str = "libtholdrimash.a";

fn main() {
    println!("cargo:rerun-if-env-changed={FOLDER}");
    if variable("CARGO_CFG_TARGET_ARCH") != "x86_64" || variable("CARGO_CFG_TARGET_OS") != "linux" {
        refuse("the library is for x86-64 Linux only");
    }
    let folder = folder();
    println!("cargo:rerun-if-changed={}", folder.join(ARCHIVE).display());
    if !folder.join(ARCHIVE).is_file() {
        refuse(&format!(
            "there is no {ARCHIVE} in {}\n\
             Run `tools/build tholdrimash` at the repository's root, or set {FOLDER}.",
            folder.display()
        ));
    }
    println!("cargo:rustc-link-search=native={}", folder.display());
}

/// The archive's folder, as a whole path: the linker runs in another folder than this program.
fn folder() -> PathBuf {
    let crate_folder = PathBuf::from(variable("CARGO_MANIFEST_DIR"));
    let named = variable(FOLDER);
    if named.is_empty() {
        crate_folder.join("../target/staticlib")
    } else {
        crate_folder.join(named)
    }
}

/// The variable's value, empty if it is not set.
fn variable(name: &str) -> OsString {
    env::var_os(name).unwrap_or_default()
}

fn refuse(why: &str) -> ! {
    eprintln!("tholdrimash: {why}");
    process::exit(1)
}
