//! What the scripts in Python make is what is stored: the examples, the cases with
//! their answers, and what the two programs are run on. The scripts are run in a
//! folder of their own, with `python3`; without it these tests fail, since nothing
//! would be compared.

use std::collections::BTreeMap;
use std::fs;
use std::path::{Path, PathBuf};
use std::process::Command;

fn repository() -> PathBuf {
    Path::new(env!("CARGO_MANIFEST_DIR")).join("..")
}

/// The files in a folder and in those below it, by their paths, with their bytes.
/// What Python and Rattle's tool keep for themselves is left out.
fn files_in(root: &Path, folder: &str) -> BTreeMap<String, Vec<u8>> {
    let mut files = BTreeMap::new();
    for entry in fs::read_dir(root.join(folder)).unwrap() {
        let entry = entry.unwrap();
        let path = format!("{folder}/{}", entry.file_name().to_str().unwrap());
        if path.ends_with("__pycache__") || path.ends_with("/out") {
            continue;
        }
        if entry.path().is_dir() {
            files.extend(files_in(root, &path));
        } else {
            files.insert(path, fs::read(entry.path()).unwrap());
        }
    }
    files
}

/// Runs scripts on a copy of these folders in which the files that they make are
/// missing, and compares the folders with the repository's.
fn check_made(test: &str, folders: &[&str], scripts: &[&str], made: fn(&str) -> bool) {
    let copy =
        Path::new(env!("CARGO_TARGET_TMPDIR")).join(format!("made-{test}-{}", std::process::id()));
    let _ = fs::remove_dir_all(&copy);
    let stored = |root: &Path| {
        let mut files = BTreeMap::new();
        for folder in folders {
            files.extend(files_in(root, folder));
        }
        files
    };
    let wanted = stored(&repository());
    assert!(wanted.keys().any(|path| made(path)));
    for (path, bytes) in &wanted {
        fs::create_dir_all(copy.join(path).parent().unwrap()).unwrap();
        if !made(path) {
            fs::write(copy.join(path), bytes).unwrap();
        }
    }
    for script in scripts {
        let run = Command::new("python3")
            .args(["-B", script])
            .current_dir(&copy)
            .output()
            .expect("python3");
        let said = String::from_utf8_lossy(&run.stderr);
        assert!(run.status.success(), "{script}: {said}");
    }
    let found = stored(&copy);
    for (path, bytes) in &wanted {
        assert!(found.get(path) == Some(bytes), "{path} is not what is made");
    }
    let more = found.keys().find(|path| !wanted.contains_key(*path));
    assert_eq!(more, None, "a file is made that is not stored");
    fs::remove_dir_all(&copy).unwrap();
}

#[test]
fn the_examples() {
    let scripts = ["examples/lea.py", "examples/xtea.py"];
    check_made("examples", &["examples"], &scripts, |path| {
        path.ends_with(".sheet") || path.ends_with(".units")
    });
}

/// Half a minute on a machine that has nothing else to do.
#[test]
fn the_cases_and_their_answers() {
    let folders = [
        "tools",
        "examples",
        "crates/cases",
        "crates/trail_report",
        "crates/trail_clauses",
    ];
    check_made("cases", &folders, &["tools/cases.py"], |path| {
        path.starts_with("crates/cases/data/")
            || path.ends_with("/stdin")
            || path.ends_with("/stdout")
    });
}
