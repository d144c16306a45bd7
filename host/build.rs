//! Finds the archive that has the scan, and links it.

use std::{env, path::Path, process::exit};

const VARIABLE: &str = "ONIONSAIL_LIB_DIR";
const HOW: &str = "\
At the root of the repository:
    scripts/native abi_c target/staticlib/libabi.a
    export ONIONSAIL_LIB_DIR=$PWD/target/staticlib
scripts/host does this and runs the tests.";

fn main() {
    println!("cargo:rerun-if-env-changed={VARIABLE}");
    let Some(folder) = env::var_os(VARIABLE) else {
        stop(&format!(
            "{VARIABLE} is not set: it names the folder that has libabi.a"
        ));
    };
    let folder = Path::new(&folder);
    if !folder.is_absolute() {
        stop(&format!(
            "{VARIABLE} is {}, which is no absolute path",
            folder.display()
        ));
    }
    let archive = folder.join("libabi.a");
    if !archive.is_file() {
        stop(&format!("there is no {}", archive.display()));
    }
    println!("cargo:rerun-if-changed={}", archive.display());
    println!("cargo:rustc-link-search=native={}", folder.display());
    println!("cargo:rustc-link-lib=static=abi");
    // For the test that links it from C.
    println!("cargo:rustc-env=ONIONSAIL_ARCHIVE={}", archive.display());
}

fn stop(why: &str) -> ! {
    eprintln!("onionsail: {why}\n{HOW}");
    exit(1)
}
