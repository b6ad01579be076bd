//! The scripts `tablegull`, `.ci/run`, `tools/archive`, `examples/solve` and
//! `examples/xtea`. Each is copied to a folder of its own, and what it calls is
//! played there by small scripts that tell how they were called: neither a program,
//! Rattle's tool nor a SAT solver is needed.

use std::fs;
use std::os::unix::fs::{symlink, PermissionsExt};
use std::path::{Path, PathBuf};
use std::process::Command;
use std::sync::{Mutex, MutexGuard, PoisonError};

/// What the scripts use of the system, and no solver, `rt` or `cargo` with it.
const TOOLS: [&str; 12] = [
    "awk", "cat", "cp", "dirname", "head", "mktemp", "od", "rm", "sh", "tr", "wc", "chmod",
];

/// Held by the one test that runs: a script that is written while another test starts a
/// program may still be open for writing there, and cannot be run then.
static ALONE: Mutex<()> = Mutex::new(());

/// A folder of one test, gone when it goes out of use.
struct Folder(PathBuf, #[allow(dead_code)] MutexGuard<'static, ()>);

impl Folder {
    /// With this script of the repository in its place, and nothing else.
    fn with(script: &str, test: &str) -> Folder {
        let name = format!("scripts-{test}-{}", std::process::id());
        let alone = ALONE.lock().unwrap_or_else(PoisonError::into_inner);
        let folder = Folder(Path::new(env!("CARGO_TARGET_TMPDIR")).join(name), alone);
        let _ = fs::remove_dir_all(&folder.0);
        let repository = Path::new(env!("CARGO_MANIFEST_DIR")).join("..");
        fs::copy(repository.join(script), folder.place(script)).unwrap();
        for tool in TOOLS {
            folder.tool(tool);
        }
        folder
    }

    /// With this program of the system on the path.
    fn tool(&self, tool: &str) {
        let paths = std::env::var_os("PATH").unwrap();
        let mut found = std::env::split_paths(&paths).map(|path| path.join(tool));
        let found = found.find(|file| file.is_file());
        symlink(found.expect(tool), self.place(&format!("bin/{tool}"))).unwrap();
    }

    /// The path of a file, whose folder is made.
    fn place(&self, file: &str) -> PathBuf {
        let path = self.0.join(file);
        fs::create_dir_all(path.parent().unwrap()).unwrap();
        path
    }

    fn file(&self, name: &str, text: &str) -> &Folder {
        fs::write(self.place(name), text).unwrap();
        self
    }

    /// A program that is a shell script.
    fn program(&self, name: &str, text: &str) -> &Folder {
        self.file(name, &format!("#!/bin/sh\n{text}\n"));
        fs::set_permissions(self.place(name), fs::Permissions::from_mode(0o755)).unwrap();
        self
    }

    /// Runs a script in the folder `elsewhere`; what it prints, what it says on
    /// standard error, and its exit status.
    fn run(&self, script: &str, arguments: &[&str]) -> (String, String, Option<i32>) {
        let elsewhere = self.place("elsewhere/x");
        let output = Command::new(self.0.join(script))
            .args(arguments)
            .current_dir(elsewhere.parent().unwrap())
            .env("PATH", self.0.join("bin"))
            .output()
            .unwrap();
        let text = |bytes| String::from_utf8(bytes).unwrap();
        (
            text(output.stdout),
            text(output.stderr),
            output.status.code(),
        )
    }

    /// Runs a script that has to fail, with nothing printed and one line said.
    fn fails(&self, script: &str, arguments: &[&str]) -> String {
        let (printed, said, status) = self.run(script, arguments);
        assert_eq!((printed.as_str(), status), ("", Some(1)), "{said}");
        assert_eq!(said.lines().count(), 1, "{said}");
        said
    }
}

impl Drop for Folder {
    fn drop(&mut self) {
        let _ = fs::remove_dir_all(&self.0);
    }
}

fn succeeds(printed: &str) -> (String, String, Option<i32>) {
    (printed.into(), String::new(), Some(0))
}

/// Where a built program lies.
fn built(program: &str) -> String {
    format!("crates/{program}/out/{program}")
}

/// With both programs, which print their names and then the sheet.
fn tablegull(test: &str) -> Folder {
    let folder = Folder::with("tablegull", test);
    for name in ["trail_report", "trail_clauses"] {
        folder.program(&built(name), &format!("echo {name}; cat"));
    }
    folder.file("examples/lea7.sheet", "the example\n");
    folder.file("elsewhere/own.sheet", "its own\n");
    folder
}

#[test]
fn tablegull_runs_the_program_on_the_sheet() {
    let folder = tablegull("runs");
    for (word, program) in [("report", "trail_report"), ("clauses", "trail_clauses")] {
        let of_example = succeeds(&format!("{program}\nthe example\n"));
        assert_eq!(folder.run("tablegull", &[word]), of_example);
        let of_own = succeeds(&format!("{program}\nits own\n"));
        assert_eq!(folder.run("tablegull", &[word, "own.sheet"]), of_own);
    }
}

#[test]
fn tablegull_says_what_it_cannot_do() {
    let folder = tablegull("cannot");
    for (arguments, what) in [
        (&[][..], "say 'report' or 'clauses'"),
        (&["own.sheet"], "say 'report' or 'clauses'"),
        (&["reports"], "say 'report' or 'clauses'"),
        (
            &["report", "own.sheet", "more"],
            "say 'report' or 'clauses'",
        ),
        (&["report", ""], "there is no file ''"),
        (&["report", "none.sheet"], "there is no file 'none.sheet'"),
        (&["clauses", "../elsewhere"], "'../elsewhere' is a folder"),
    ] {
        let said = folder.fails("tablegull", arguments);
        let wanted = format!("tablegull: {what}");
        assert!(said.starts_with(&wanted), "{arguments:?}: {said}");
    }
}

#[test]
fn tablegull_ends_with_1_where_the_program_failed() {
    let folder = tablegull("failed");
    for status in [0, 1, 3] {
        let text = format!("echo cut; echo full >&2; exit {status}");
        folder.program(&built("trail_clauses"), &text);
        let failed = ("cut\n".into(), "tablegull: full\n".into(), Some(1));
        assert_eq!(folder.run("tablegull", &["clauses"]), failed);
    }
    folder.program(&built("trail_clauses"), "echo cut; exit 3");
    let (printed, said, status) = folder.run("tablegull", &["clauses"]);
    assert_eq!((printed.as_str(), status), ("cut\n", Some(1)));
    assert!(said.starts_with("tablegull: "), "{said}");
}

#[test]
fn tablegull_has_a_missing_program_built() {
    let folder = Folder::with("tablegull", "missing");
    folder.file("examples/lea7.sheet", "the example\n");
    for program in ["trail_report", "trail_clauses"] {
        folder.place(&format!("crates/{program}/src"));
    }
    folder.fails("tablegull", &["report"]);
    folder.program("bin/rt", "exit 1");
    assert_eq!(folder.run("tablegull", &["report"]).2, Some(1));
    // One that says it is built, and is not.
    folder.program("bin/rt", "exit 0");
    assert_eq!(folder.run("tablegull", &["report"]).2, Some(1));
    folder.file("built", "#!/bin/sh\necho built; cat\n");
    // Run once as it is built, on no input; what it prints then is not the sheet's.
    folder.program(
        "bin/rt",
        "echo \"$@\" in \"$PWD\" >> ../../said && cat > ../../input && echo first\n\
         name=${PWD##*/} && cp ../../built \"out/$name\" && chmod +x \"out/$name\"",
    );
    for (word, program) in [("report", "trail_report"), ("clauses", "trail_clauses")] {
        folder.place(&format!("crates/{program}/out/x"));
        let (printed, _, status) = folder.run("tablegull", &[word]);
        assert_eq!(
            (printed.as_str(), status),
            ("built\nthe example\n", Some(0))
        );
        let said = fs::read_to_string(folder.place("said")).unwrap();
        let wanted = format!(
            "run in {}\n",
            folder.0.join("crates").join(program).display()
        );
        assert!(said.ends_with(&wanted), "{said}");
        assert_eq!(fs::read_to_string(folder.place("input")).unwrap(), "");
    }
}

#[test]
fn the_archive_is_the_static_librarys() {
    let folder = Folder::with("tools/archive", "archive");
    for tool in ["mkdir", "mv"] {
        folder.tool(tool);
    }
    folder.place("crates/tablegull_c/out/x");
    folder.fails("tools/archive", &[]);
    let archive = folder.0.join("target/staticlib/libtablegull.a");
    folder.program("bin/rt", "exit 1");
    folder.fails("tools/archive", &[]);
    // One that says it is built, and is not.
    folder.program("bin/rt", "exit 0");
    assert_eq!(folder.run("tools/archive", &[]).2, Some(1));
    assert!(!archive.exists());
    for built in ["first", "second"] {
        folder.program(
            "bin/rt",
            &format!("echo \"$@\" in \"${{PWD##*/}}\"; echo {built} > out/libtablegull_c.a"),
        );
        let said = "lib in tablegull_c\n".to_string();
        let done = (String::new(), said, Some(0));
        assert_eq!(folder.run("tools/archive", &[]), done);
        assert_eq!(fs::read_to_string(&archive).unwrap(), format!("{built}\n"));
    }
}

#[test]
fn the_gate_is_rt_ci_in_the_repository() {
    let folder = Folder::with(".ci/run", "gate");
    folder.tool("bash");
    for status in [0, 1, 3] {
        folder.program("bin/rt", &format!("echo \"$*\" in \"$PWD\"; exit {status}"));
        let (printed, _, ended) = folder.run(".ci/run", &[]);
        assert_eq!(printed, format!("ci in {}\n", folder.0.display()));
        assert_eq!(ended, Some(status));
    }
    // An edit that cannot be applied fails nothing in `rt ci`.
    for (edits, status) in [
        ("", 0),
        ("; must-fail edits: 5 refused", 0),
        ("; must-fail edits: 5 refused, 1 of them only by a limit", 0),
        ("; must-fail edits: 5 refused, 1 bad", 1),
        ("; must-fail edits: 0 refused, 12 bad", 1),
        (
            "; must-fail edits: 5 refused, 1 of them only by a limit, 10 bad",
            1,
        ),
    ] {
        let ok = format!("rt: ok; handles allowed: none{edits}; all was done in this run");
        folder.program("bin/rt", &format!("echo '{ok}'; echo '5 passed, 0 failed'"));
        let (printed, said, ended) = folder.run(".ci/run", &[]);
        assert_eq!(printed, format!("{ok}\n5 passed, 0 failed\n"));
        assert_eq!(
            (ended, said.is_empty()),
            (Some(status), status == 0),
            "{said}"
        );
    }
}

/// A clause file of 3 clauses. The sheet has words of 5 bits and two inputs.
const CLAUSES: &str = "p cnf 30 3\n1 2 0\n-3 4 0\n5 -30 0\n";
const SHEET: &str = "ARXT\x05\x02";
/// Words 10101 and 00110.
const MODEL: &str = "v 1 -2 3 -4 5 -6 7\nv 8 -9 -10 11 -30 0\n";

/// With a `tablegull` that prints the clauses of `own.sheet`, and a solver.
fn solve(test: &str, solver: &str, text: &str) -> Folder {
    let folder = Folder::with("examples/solve", test);
    let (own, example) = ("elsewhere/own.sheet", "examples/lea7.sheet");
    folder.file(own, SHEET).file(example, SHEET);
    folder.file("clauses", CLAUSES);
    folder.program("tablegull", "echo \"$@\" > ../asked; cat ../clauses");
    folder.program(&format!("bin/{solver}"), text);
    folder
}

/// A solver that keeps what it was given, prints this and ends with a status.
fn keeping(printed: &str, status: i32) -> String {
    format!("[ \"$1\" = -q ] && cp \"$2\" ../given; printf '{printed}'; exit {status}")
}

#[test]
fn solve_prints_the_words_of_a_solution() {
    let folder = solve(
        "words",
        "cadical",
        &keeping(&MODEL.replace('\n', "\\n"), 10),
    );
    let found = "clauses: p cnf 30 3\n\
                 cadical: there is a starting value. Its words, in hexadecimal:\n15\n06\n";
    assert_eq!(
        folder.run("examples/solve", &["own.sheet"]),
        succeeds(found)
    );
    let read = |name| fs::read_to_string(folder.place(name)).unwrap();
    assert_eq!(read("asked"), "clauses own.sheet\n");
    assert_eq!(read("given"), CLAUSES);
    assert_eq!(folder.run("examples/solve", &[]), succeeds(found));
    let example = folder.0.join("examples/lea7.sheet");
    assert_eq!(read("asked"), format!("clauses {}\n", example.display()));
}

#[test]
fn solve_hands_the_solution_to_the_rust_program() {
    let folder = solve("rust", "cadical", &keeping(&MODEL.replace('\n', "\\n"), 10));
    folder.file("rust/src/bin/solution.rs", "");
    folder.program("bin/cargo", "echo \"$@\"; cat; exit 1");
    let (printed, said, status) = folder.run("examples/solve", &["own.sheet"]);
    assert_eq!((said.as_str(), status), ("", Some(1)));
    let (_, handed) = printed.split_once("hexadecimal:\n").unwrap();
    let (arguments, model) = handed.split_once('\n').unwrap();
    assert!(arguments.starts_with("run "), "{arguments}");
    assert!(
        arguments.ends_with("--bin solution -- own.sheet"),
        "{arguments}"
    );
    assert_eq!(model, MODEL);
}

#[test]
fn solve_tells_where_there_is_no_solution() {
    let folder = solve("none", "kissat", &keeping("s UNSATISFIABLE\\n", 20));
    let none = "clauses: p cnf 30 3\nkissat: no starting value follows this trail.\n";
    assert_eq!(folder.run("examples/solve", &["own.sheet"]), succeeds(none));
    for status in [0, 1, 15] {
        folder.program("bin/kissat", &keeping("", status));
        let (_, said, ended) = folder.run("examples/solve", &["own.sheet"]);
        assert_eq!(ended, Some(1), "{status}: {said}");
        assert_eq!(said.lines().count(), 1, "{said}");
    }
}

#[test]
fn solve_takes_minisat() {
    let text =
        "cp \"$1\" ../given; echo said; echo 'SAT' > \"$2\"; echo '2 -3 6 0' >> \"$2\"; exit 10";
    let folder = solve("minisat", "minisat", text);
    let found = "clauses: p cnf 30 3\n\
                 minisat: there is a starting value. Its words, in hexadecimal:\n02\n01\n";
    assert_eq!(
        folder.run("examples/solve", &["own.sheet"]),
        succeeds(found)
    );
    assert_eq!(fs::read_to_string(folder.place("given")).unwrap(), CLAUSES);
}

#[test]
fn solve_adds_clauses() {
    let folder = solve("adds", "cadical", &keeping("", 20));
    folder
        .file("elsewhere/a", "1 0\n-2 0\n")
        .file("elsewhere/b", "3 0\n");
    let none = "clauses: p cnf 30 6\n\
                cadical: no starting value follows this trail with the added clauses.\n";
    let arguments = ["own.sheet", "a", "b"];
    assert_eq!(folder.run("examples/solve", &arguments), succeeds(none));
    let clauses = CLAUSES.strip_prefix("p cnf 30 3\n").unwrap();
    let given = fs::read_to_string(folder.place("given")).unwrap();
    assert_eq!(given, format!("p cnf 30 6\n{clauses}1 0\n-2 0\n3 0\n"));
    let (_, said, status) = folder.run("examples/solve", &["own.sheet", "a", "c"]);
    assert_eq!(status, Some(1), "{said}");
}

#[test]
fn solve_fails_without_clauses_or_solver() {
    let folder = solve("fails", "cadical", &keeping(MODEL.trim(), 10));
    folder.file("clauses", "refused 9 17\n");
    let said = folder.fails("examples/solve", &["own.sheet"]);
    assert!(
        said.starts_with("solve: ") && said.ends_with(" 9 17\n"),
        "{said}"
    );
    folder.program("tablegull", "echo p cnf 1 1; echo full >&2; exit 1");
    assert_eq!(folder.fails("examples/solve", &["own.sheet"]), "full\n");
    fs::remove_file(folder.place("bin/cadical")).unwrap();
    let said = folder.fails("examples/solve", &["own.sheet"]);
    assert!(said.starts_with("solve: "), "{said}");
}

#[test]
fn xtea_asks_seven_questions() {
    let folder = Folder::with("examples/xtea", "xtea");
    folder.program("examples/solve", "echo \"asked $@\"; exit $(cat status)");
    folder.file("examples/status", "0");
    let questions = [
        "xtea27.sheet",
        "xtea_round3.sheet",
        "xtea_round4.sheet",
        "xtea_rounds3_4.sheet",
        "xtea_pair.sheet xtea_pair_round3.units",
        "xtea_pair.sheet xtea_pair_round4.units",
        "xtea_pair.sheet xtea_pair_round3.units xtea_pair_round4.units",
    ];
    let asked: String = questions
        .iter()
        .map(|question| format!("{question}\nasked {question}\n\n"))
        .collect();
    assert_eq!(folder.run("examples/xtea", &[]), succeeds(&asked));
    folder.file("examples/status", "1");
    assert_eq!(folder.run("examples/xtea", &[]).2, Some(1));
}
