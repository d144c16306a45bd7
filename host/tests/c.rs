//! `include/onionsail.h` and the archive, from C.

use std::{path::Path, process::Command};

#[test]
fn the_header_compiles_and_the_archive_links() {
    let here = Path::new(env!("CARGO_MANIFEST_DIR"));
    let program = Path::new(env!("CARGO_TARGET_TMPDIR")).join("call");
    // The C compiler is the one that cargo links with.
    let compiled = Command::new("cc")
        .args(["-std=c99", "-pedantic", "-Wall", "-Wextra", "-Werror", "-I"])
        .arg(here.join("../include"))
        .arg(here.join("tests/call.c"))
        .arg(env!("ONIONSAIL_ARCHIVE"))
        .arg("-o")
        .arg(&program)
        .output()
        .unwrap();
    assert!(compiled.status.success(), "{compiled:?}");
    let done = Command::new(&program).output().unwrap();
    assert_eq!(String::from_utf8_lossy(&done.stdout), "ok\n");
    assert!(done.status.success());
}
