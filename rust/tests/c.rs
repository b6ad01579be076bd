//! The C header, as a C compiler reads it: every call is made through it, on the
//! archive, and the README's four examples in C are compiled and run. The compiler
//! is `cc`, which links this package too, or the one that `CC` names.

mod common;

#[cfg(not(has_archive))]
#[test]
#[ignore = "libtablegull.a was not found, so NOTHING IS CALLED FROM C"]
fn the_archive_is_left_out() {}

#[cfg(has_archive)]
mod called {
    use std::fs;
    use std::path::{Path, PathBuf};
    use std::process::Command;

    use super::common::{example, sheet_of};
    use tablegull::builder::Line;
    use tablegull::slices;

    fn repository() -> PathBuf {
        Path::new(env!("CARGO_MANIFEST_DIR")).join("..")
    }

    /// Compiles a C program with the header and the archive, runs it in a folder of
    /// its own with these files in it, and answers what it prints and its exit status.
    fn run(name: &str, program: &str, files: &[(&str, &[u8])]) -> (String, Option<i32>) {
        let folder = format!("c-{name}-{}", std::process::id());
        let folder = Path::new(env!("CARGO_TARGET_TMPDIR")).join(folder);
        fs::create_dir_all(&folder).unwrap();
        fs::write(folder.join("program.c"), program).unwrap();
        for (file, bytes) in files {
            fs::write(folder.join(file), bytes).unwrap();
        }
        let library = std::env::var_os("TABLEGULL_LIB").map(PathBuf::from);
        let library = library.unwrap_or_else(|| repository().join("target/staticlib"));
        let library = library.canonicalize().unwrap();
        let compiler = std::env::var_os("CC").unwrap_or_else(|| "cc".into());
        let compiled = Command::new(compiler)
            .args(["-std=c11", "-Wall", "-Wextra", "-pedantic", "-Werror", "-I"])
            .arg(repository().join("include"))
            .args(["program.c", "-o", "program"])
            .arg(library.join("libtablegull.a"))
            .current_dir(&folder)
            .output()
            .expect("a C compiler");
        let said = String::from_utf8_lossy(&compiled.stderr);
        assert!(compiled.status.success(), "{name}: {said}");
        let output = Command::new(folder.join("program"))
            .current_dir(&folder)
            .output()
            .unwrap();
        fs::remove_dir_all(&folder).unwrap();
        (
            String::from_utf8(output.stdout).unwrap(),
            output.status.code(),
        )
    }

    const CALLS: &str = r#"
#include "tablegull.h"
#include <stddef.h>
#include <stdio.h>

_Static_assert(sizeof(struct tablegull_answer) == 24, "");
_Static_assert(offsetof(struct tablegull_answer, number) == 0, "");
_Static_assert(offsetof(struct tablegull_answer, place) == 8, "");
_Static_assert(offsetof(struct tablegull_answer, count) == 16, "");
_Static_assert(sizeof((struct tablegull_answer){0}.number) == 4, "");
_Static_assert(TABLEGULL_MAX_REPORT == TABLEGULL_MAX_LINES * TABLEGULL_LINE_REPORT, "");

static uint8_t first[TABLEGULL_MAX_SHEET], second[TABLEGULL_MAX_SHEET], bytes[TABLEGULL_MAX_CLAUSE_TEXT];
static int32_t numbers[TABLEGULL_MAX_LINE_CLAUSES];

static size_t taken(const char *name, uint8_t *sheet) {
    FILE *file = fopen(name, "rb");
    return fread(sheet, 1, TABLEGULL_MAX_SHEET, file);
}

static void said(struct tablegull_answer a) {
    printf("%lu %llu %llu:", (unsigned long)a.number, (unsigned long long)a.place, (unsigned long long)a.count);
}

static void said_bytes(struct tablegull_answer a) {
    said(a);
    for (uint64_t i = 0; i < a.count; i++) printf(" %u", bytes[i]);
    printf("\n");
}

static void said_words(struct tablegull_answer a, const uint64_t *words) {
    said(a);
    for (uint64_t i = 0; i < a.count; i++) printf(" %llu", (unsigned long long)words[i]);
    printf("\n");
}

int main(void) {
    size_t len = taken("first", first), other = taken("second", second);
    const uint64_t start[2] = {1, 2}, names[2] = {1, 3};
    const uint64_t pairs[7] = {2, 8, 1, UINT64_C(0x100000004), 3, 0, 0};
    uint64_t many[130] = {0};
    uint8_t replies[TABLEGULL_MAX_CHANGES] = {0};
    uint16_t index[TABLEGULL_MAX_INDEX];
    uint64_t words[3];
    struct tablegull_answer a;
    said(tablegull_read(first, len));
    said(tablegull_read(first, len - 1));
    said(tablegull_seal(second, other));
    printf("\n");
    said_bytes(tablegull_line_report(first, len, 1, bytes, TABLEGULL_LINE_REPORT));
    said_bytes(tablegull_report(first, len, bytes, TABLEGULL_MAX_REPORT));
    said_words(tablegull_totals(first, len, words, 3), words);
    said_words(tablegull_two_runs(first, len, start, 2, words, 3), words);
    said_words(tablegull_clause_counts(first, len, words, 2), words);
    a = tablegull_line_clauses(first, len, 1, numbers, TABLEGULL_MAX_LINE_CLAUSES);
    said(a);
    for (uint64_t i = 0; i < a.count; i++) printf(" %ld", (long)numbers[i]);
    printf("\n");
    said_bytes(tablegull_clause_text(first, len, 2, bytes, TABLEGULL_MAX_CLAUSE_TEXT));
    said_bytes(tablegull_report_text(first, len, 3, bytes, TABLEGULL_MAX_REPORT_TEXT));
    said_bytes(tablegull_join(first, len, second, other, names, 2, bytes, TABLEGULL_MAX_SHEET));
    said_bytes(tablegull_trial(first, len, 1, 4, bytes, TABLEGULL_MAX_REPORT));
    said(tablegull_line_report(first, len, 3, bytes, TABLEGULL_LINE_REPORT));
    said(tablegull_line_clauses(first, len, 0, numbers, 1));
    said(tablegull_two_runs(first, len, start, 1, words, 3));
    said(tablegull_join(first, len, second, other, names, 1, bytes, TABLEGULL_MAX_SHEET));
    said(tablegull_trial(first, len, 1, UINT64_C(0x100000004), bytes, TABLEGULL_MAX_REPORT));
    said(tablegull_change(first, len, UINT64_C(0x100000001), 4));
    said(tablegull_change(first, len, 1, UINT64_C(0x100000004)));
    said(tablegull_change(first, len, 1, 4));
    printf("\n");
    said_bytes(tablegull_report(first, len, bytes, TABLEGULL_MAX_REPORT));
    said(tablegull_change_all(first, len, many, 130, replies, TABLEGULL_MAX_CHANGES));
    said(tablegull_change_all(first, len, pairs, 7, replies, 2));
    a = tablegull_change_all(first, len, pairs, 7, replies, 3);
    said(a);
    for (uint64_t i = 0; i < a.count; i++) printf(" %u", replies[i]);
    printf("\n");
    said_bytes(tablegull_report(first, len, bytes, TABLEGULL_MAX_REPORT));
    said(tablegull_index(first, len, index, 8));
    a = tablegull_index(first, len, index, TABLEGULL_MAX_INDEX);
    said(a);
    for (uint64_t i = 0; i < a.count; i++) printf(" %u", index[i]);
    printf("\n");
    said(tablegull_change_indexed(first, len, index, a.count - 1, bytes, 48, 3, 16));
    said(tablegull_change_indexed(first, len, index, a.count, bytes, 48, 3, 16));
    said(tablegull_change_indexed(first, len, index, a.count, bytes, 48, 2, 16));
    said(tablegull_change_indexed(first, len, index, a.count, bytes, 48, 2, 2));
    for (int i = 0; i < 48; i++) printf(" %u", bytes[i]);
    printf("\n");
    said_bytes(tablegull_report(first, len, bytes, TABLEGULL_MAX_REPORT));
    return 0;
}
"#;

    /// An answer and what was written, as the program in C prints them.
    fn said<T: std::fmt::Display>(answer: Result<usize, tablegull::Refusal>, out: &[T]) -> String {
        let (number, place, count) = match answer {
            Ok(count) => (0, 0, count),
            Err(refusal) => (refusal.number, refusal.place, 0),
        };
        let written: String = out[..count].iter().map(|x| format!(" {x}")).collect();
        format!("{number} {place} {count}:{written}")
    }

    #[test]
    fn every_call_as_the_header_declares_it() {
        let lines = [
            Line::add(0, 1, 5),
            Line::add_constant(1, 3, 12),
            Line::rotate_left(0, 1, 3),
        ];
        let first = sheet_of(4, &[1, 4], &lines);
        let second = sheet_of(4, &[4, 12], &[Line::subtract(0, 1, 8)]);
        let (first, second) = (&first[..], &second[..]);
        // Asked by the declarations of this package, which has its own tests.
        let mut sealed = second.to_vec();
        let (mut bytes, mut words, mut numbers) = ([0; 34608], [0; 3], [0; 4944]);
        let none: [u8; 0] = [];
        let mut expected = [
            said(slices::read(first), &[""; 99]).trim_end().to_string(),
            said(slices::read(&first[1..]), &none),
            said(slices::seal(&mut sealed), &[""; 99])
                .trim_end()
                .to_string(),
            "\n".into(),
        ]
        .concat();
        let mut line = |text: String| expected += &(text + "\n");
        line(said(slices::line_report(first, 1, &mut bytes), &bytes));
        line(said(slices::report(first, &mut bytes), &bytes));
        line(said(slices::totals(first, &mut words), &words));
        line(said(slices::two_runs(first, &[1, 2], &mut words), &words));
        line(said(slices::clause_counts(first, &mut words), &words));
        line(said(slices::line_clauses(first, 1, &mut numbers), &numbers));
        line(said(slices::clause_text_part(first, 2, &mut bytes), &bytes));
        line(said(slices::report_text_part(first, 3, &mut bytes), &bytes));
        line(said(
            slices::join(first, second, &[1, 3], &mut bytes),
            &bytes,
        ));
        let tried = said(slices::trial(first, 1, 4, &mut bytes), &bytes);
        line(tried.clone());
        let refused = [
            (17, 0),
            (18, 0),
            (19, 0),
            (21, 0),
            (14, 1),
            (17, 0),
            (14, 1),
        ];
        let changed = (0, 0);
        line(
            refused
                .into_iter()
                .chain([changed])
                .map(|(number, place)| format!("{number} {place} 0:"))
                .collect(),
        );
        // The report of the changed sheet is what was tried.
        line(tried);
        line("24 0 0:25 0 0:0 0 3: 0 14 17".into());
        let mut changed = first.to_vec();
        slices::change(&mut changed, 1, 4).unwrap();
        slices::change(&mut changed, 2, 8).unwrap();
        line(said(slices::report(&changed, &mut bytes), &bytes));
        // Two words for inputs, three for lines, and four uses.
        line("18 0 0:0 0 9: 2 0 2 2 0 1 0 0 0".into());
        slices::change(&mut changed, 2, 2).unwrap();
        let renewed = said(slices::report(&changed, &mut bytes), &bytes);
        let (_, its_bytes) = renewed.split_once(':').unwrap();
        line(format!("26 0 0:17 0 0:14 2 0:0 0 0:{its_bytes}"));
        line(renewed);
        let files = [("first", first), ("second", second)];
        assert_eq!(run("calls", CALLS, &files), (expected, Some(0)));
    }

    /// The calls that a text declares, each with the names of its parameters.
    fn declared(text: &str, before: &str, name_of: fn(&str) -> &str) -> Vec<String> {
        let mut calls: Vec<String> = text
            .split(before)
            .skip(1)
            .map(|rest| {
                let (name, rest) = rest.split_once('(').unwrap();
                let (parameters, _) = rest.split_once(')').unwrap();
                let parameters = parameters.split(',').map(str::trim);
                let named = parameters.filter(|one| !one.is_empty()).map(name_of);
                format!("{name} {}", named.collect::<Vec<&str>>().join(" "))
            })
            .collect();
        calls.sort();
        calls
    }

    /// What the header declares, and nothing else, is declared by this package, with
    /// the parameters in the same order: a compiler does not tell two lengths apart.
    #[test]
    fn the_header_declares_what_the_package_declares() {
        let header = declared(
            include_str!("../../include/tablegull.h"),
            "\nstruct tablegull_answer tablegull_",
            |one| one.rsplit([' ', '*']).next().unwrap(),
        );
        let package = declared(include_str!("../src/ffi.rs"), "pub fn tablegull_", |one| {
            one.split(':').next().unwrap()
        });
        assert_eq!(header, package);
        assert_eq!(header.len(), 16);
    }

    /// The README's indented lines from one that begins so, up to a blank one.
    fn of_readme(beginning: &str) -> String {
        let readme = include_str!("../../README.md");
        let lines = readme.lines().map(|line| line.strip_prefix("    "));
        let block = lines
            .skip_while(|line| !line.is_some_and(|line| line.starts_with(beginning)))
            .map_while(|line| line);
        block.map(|line| format!("{line}\n")).collect()
    }

    #[test]
    fn the_readmes_examples_in_c() {
        let answer = of_readme("struct tablegull_answer a = ");
        let file = of_readme("static uint8_t text[");
        let program = format!(
            "#include \"tablegull.h\"\n#include <stdio.h>\n\
             static uint8_t sheet[TABLEGULL_MAX_SHEET];\nstatic int32_t out[4944];\n\
             int main(void) {{\nFILE *read = fopen(\"sheet\", \"rb\"), *file = stdout;\n\
             size_t len = fread(sheet, 1, sizeof sheet, read);\n{answer}{file}return 0;\n}}\n"
        );
        let clauses = tablegull::clause_text(&example()).unwrap();
        let accepted = run("readme", &program, &[("sheet", &example()[..])]);
        assert_eq!(accepted, (clauses, Some(0)));
        let refused = run("refused", &program, &[("sheet", &example()[..1023])]);
        assert_eq!(refused, ("refused 1 0\n".to_string(), Some(1)));
    }

    /// The two changes that mend the printed trail, and a third that is refused.
    #[test]
    fn the_readmes_list_of_changes() {
        let printed = include_bytes!("../../examples/lea7_printed.sheet");
        let mended = include_bytes!("../../examples/lea7.sheet");
        let list = of_readme("uint64_t pairs[] = ");
        let program = format!(
            "#include \"tablegull.h\"\n#include <stdio.h>\n#include <string.h>\n\
             static uint8_t sheet[TABLEGULL_MAX_SHEET], other[TABLEGULL_MAX_SHEET];\n\
             int main(void) {{\nFILE *read = fopen(\"sheet\", \"rb\"), *mended = fopen(\"mended\", \"rb\");\n\
             size_t len = fread(sheet, 1, sizeof sheet, read);\n\
             if (fread(other, 1, sizeof other, mended) != len) return 1;\n\
             struct tablegull_answer a;\n{list}\
             printf(\"%d %d %d %d\\n\", (int)a.count, replies[0], replies[1], replies[2]);\n\
             return memcmp(sheet, other, len) != 0;\n}}\n"
        );
        let files = [("sheet", &printed[..]), ("mended", &mended[..])];
        let changed = run("changes", &program, &files);
        assert_eq!(changed, ("3 0 0 17\n".to_string(), Some(0)));
    }

    /// The first of those changes, with index and report beside the sheet: both are
    /// afterwards those that are made afresh.
    #[test]
    fn the_readmes_index() {
        let printed = include_bytes!("../../examples/lea7_printed.sheet");
        let change = of_readme("uint16_t index[TABLEGULL_MAX_INDEX]");
        let program = format!(
            "#include \"tablegull.h\"\n#include <stdio.h>\n#include <string.h>\n\
             static uint8_t sheet[TABLEGULL_MAX_SHEET];\n\
             static uint8_t fresh[TABLEGULL_MAX_REPORT];\nstatic uint16_t again[TABLEGULL_MAX_INDEX];\n\
             int main(void) {{\nFILE *read = fopen(\"sheet\", \"rb\");\n\
             size_t len = fread(sheet, 1, sizeof sheet, read);\n\
             struct tablegull_answer a;\n{change}\
             printf(\"%d %d %d\\n\", (int)a.number, (int)numbers, (int)bytes);\n\
             tablegull_report(sheet, len, fresh, sizeof fresh);\n\
             tablegull_index(sheet, len, again, TABLEGULL_MAX_INDEX);\n\
             return memcmp(report, fresh, bytes) != 0 || memcmp(index, again, 2 * numbers) != 0;\n}}\n"
        );
        let numbers = tablegull::index(&printed[..]).unwrap().0.len();
        let changed = run("index", &program, &[("sheet", &printed[..])]);
        assert_eq!(changed, (format!("0 {numbers} {}\n", 16 * 140), Some(0)));
    }
}
