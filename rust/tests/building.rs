//! What the build script does where the archive is not where it is said to be.

use std::path::Path;
use std::process::{Command, Output};

/// Has the package checked, not linked, in a target folder of its own, with
/// `TABLEGULL_LIB` naming this folder.
fn checked_with(library: &Path, target: &Path) -> Output {
    Command::new(env!("CARGO"))
        .args(["check", "--lib", "--offline", "--quiet", "--target-dir"])
        .arg(target)
        .env("TABLEGULL_LIB", library)
        .current_dir(env!("CARGO_MANIFEST_DIR"))
        .output()
        .unwrap()
}

#[test]
fn a_named_folder_must_have_the_archive() {
    let name = format!("building-{}", std::process::id());
    let folder = Path::new(env!("CARGO_TARGET_TMPDIR")).join(name);
    let library = folder.join("library");
    std::fs::create_dir_all(&library).unwrap();
    let missing = checked_with(&library, &folder.join("target"));
    let said = String::from_utf8_lossy(&missing.stderr);
    assert!(!missing.status.success(), "{said}");
    assert!(said.contains("there is no libtablegull.a in it"), "{said}");
    // Checking does not link, so that any file will do.
    std::fs::write(library.join("libtablegull.a"), b"").unwrap();
    let found = checked_with(&library, &folder.join("target"));
    let said = String::from_utf8_lossy(&found.stderr);
    assert!(found.status.success(), "{said}");
    std::fs::remove_dir_all(&folder).unwrap();
}
