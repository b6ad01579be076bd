//! The archive held against the reference: answers, refusals and every lent
//! byte, on many thousands of sheets.

mod common;

#[cfg(not(has_archive))]
#[test]
#[ignore = "libtablegull.a was not found, so NOTHING IS COMPARED WITH THE ARCHIVE"]
fn the_archive_is_left_out() {}

/// An archive in its place is linked: else all that compares with it would be left
/// out.
#[cfg(not(has_archive))]
#[test]
fn there_is_no_archive() {
    let folder = std::path::Path::new(env!("CARGO_MANIFEST_DIR")).join("../target/staticlib");
    assert!(!folder.join("libtablegull.a").exists());
}

#[cfg(has_archive)]
mod compared {
    use super::common::changing::random_change;
    use super::common::changing_all::{assert_same, random_list, random_room_of_replies};
    use super::common::damage::damage_a_field;
    use super::common::indexing::{self, spoil, Kept};
    use super::common::lending::{rewritten, Element};
    use super::common::sealing::{random_sheet_to_seal, Met};
    use super::common::{
        disturb, example, random_lines, random_program, random_shape, write_checks, KeptOnFailure,
        Outcome, Program, Random, ARCHIVE, REFERENCE,
    };

    /// Lends both calls the same buffer, a part of a longer one, and compares
    /// what they answer and the whole of the longer one afterwards.
    fn compare<T: Element>(
        random: &mut Random,
        length: usize,
        call: &str,
        archive: impl FnOnce(&mut [T]) -> Outcome,
        reference: impl FnOnce(&mut [T]) -> Outcome,
    ) {
        let guard = 1 + random.below(8);
        let noise = random.next() | 1;
        let before: Vec<T> = (0..length + 2 * guard)
            .map(|index| T::of(noise.wrapping_mul(2 * index as u64 + 1) >> 11))
            .collect();
        let lent = guard..guard + length;
        let (mut ours, mut theirs) = (before.clone(), before.clone());
        let answer = archive(&mut theirs[lent.clone()]);
        let expected = reference(&mut ours[lent.clone()]);
        assert_eq!(answer, expected, "{call}, buffer of {length}");
        if let Some(at) = (0..before.len()).find(|&at| ours[at] != theirs[at]) {
            panic!(
                "{call}, buffer of {length}: {:?} at {}, the reference has {:?}",
                theirs[at],
                at as isize - guard as isize,
                ours[at]
            );
        }
        let written = answer.unwrap_or(0);
        assert!(theirs[..guard] == before[..guard], "{call}: before");
        assert!(
            theirs[guard + written..] == before[guard + written..],
            "{call}: past the answer"
        );
    }

    /// Lengths about the need: too short, exact and longer.
    fn lengths(random: &mut Random, need: usize) -> [usize; 4] {
        [
            random.below(need),
            need - 1,
            need,
            need + 1 + random.below(40),
        ]
    }

    /// Lends both calls a copy of the sheet to write into, and compares what they
    /// answer and the copies. What was written can be read; a refusal writes nothing.
    fn compare_rewritten(
        sheet: &[u8],
        call: &str,
        archive: impl FnOnce(&mut [u8]) -> Outcome,
        reference: impl FnOnce(&mut [u8]) -> Outcome,
    ) -> Outcome {
        let (answer, theirs) = rewritten(|| call.into(), sheet, archive);
        let (expected, ours) = rewritten(|| call.into(), sheet, reference);
        assert_eq!(answer, expected, "{call}");
        assert!(ours == theirs, "{call}: other contents");
        match answer {
            Ok(_) => assert!((ARCHIVE.read)(&theirs).is_ok(), "{call}: not readable"),
            Err(_) => assert!(theirs == sheet, "{call}: a refusal that wrote"),
        }
        answer
    }

    fn compare_reading(sheet: &[u8]) -> Outcome {
        let answer = (ARCHIVE.read)(sheet);
        assert_eq!(answer, (REFERENCE.read)(sheet), "read");
        let sealed = compare_rewritten(sheet, "seal", ARCHIVE.seal, REFERENCE.seal);
        assert!(sealed.is_err() || sealed == Ok(sheet.len() / 512));
        answer
    }

    fn compare_change(random: &mut Random, sheet: &[u8], width: u32, lines: usize, length: usize) {
        let change = random_change(random, width, lines);
        let (line, difference) = (change.line, change.difference);
        let changed = compare_rewritten(
            sheet,
            "change",
            |copy| (ARCHIVE.change)(copy, line, difference),
            |copy| (REFERENCE.change)(copy, line, difference),
        );
        assert!(changed.is_err() || changed == Ok(0));
        compare(
            random,
            length,
            "trial",
            |out| (ARCHIVE.trial)(sheet, line, difference, out),
            |out| (REFERENCE.trial)(sheet, line, difference, out),
        );
    }

    fn compare_change_all(random: &mut Random, sheet: &[u8], width: u32, lines: usize) {
        let list = random_list(random, width, lines);
        let room = random_room_of_replies(random, list.len() / 2);
        let case = || format!("change_all, {list:?}, room {room}");
        let theirs = ARCHIVE.changed_all(sheet, &list, room);
        let ours = REFERENCE.changed_all(sheet, &list, room);
        assert_same(&theirs, &ours, case);
        if let Ok(changed) = theirs {
            let read = (ARCHIVE.read)(&changed.sheet);
            assert!(read.is_ok(), "{}: not readable", case());
        }
    }

    fn compare_index(random: &mut Random, sheet: &[u8], length: usize) {
        compare(
            random,
            length,
            "index",
            |out| (ARCHIVE.index)(sheet, out),
            |out| (REFERENCE.index)(sheet, out),
        );
    }

    fn compare_change_indexed(
        random: &mut Random,
        sheet: &[u8],
        lent: &Kept,
        width: u32,
        lines: usize,
    ) {
        let change = random_change(random, width, lines);
        let case = || format!("change_indexed, {change:?}");
        let theirs = ARCHIVE.changed_indexed(sheet, lent, change);
        let ours = REFERENCE.changed_indexed(sheet, lent, change);
        indexing::assert_same(&theirs, &ours, case);
        if let Ok(changed) = theirs {
            let read = (ARCHIVE.read)(&changed.sheet);
            assert!(read.is_ok(), "{}: not readable", case());
        }
    }

    fn compare_line_calls(random: &mut Random, sheet: &[u8], line: usize, length: usize) {
        compare(
            random,
            length,
            "line_report",
            |out| (ARCHIVE.line_report)(sheet, line, out),
            |out| (REFERENCE.line_report)(sheet, line, out),
        );
        compare(
            random,
            length,
            "line_clauses",
            |out| (ARCHIVE.line_clauses)(sheet, line, out),
            |out| (REFERENCE.line_clauses)(sheet, line, out),
        );
    }

    fn compare_texts(random: &mut Random, sheet: &[u8], part: usize, length: usize) {
        compare(
            random,
            length,
            "clause_text_part",
            |out| (ARCHIVE.clause_text_part)(sheet, part, out),
            |out| (REFERENCE.clause_text_part)(sheet, part, out),
        );
        compare(
            random,
            length,
            "report_text_part",
            |out| (ARCHIVE.report_text_part)(sheet, part, out),
            |out| (REFERENCE.report_text_part)(sheet, part, out),
        );
    }

    fn compare_report(random: &mut Random, sheet: &[u8], length: usize) {
        compare(
            random,
            length,
            "report",
            |out| (ARCHIVE.report)(sheet, out),
            |out| (REFERENCE.report)(sheet, out),
        );
    }

    fn compare_small_calls(random: &mut Random, sheet: &[u8], start: &[u64], length: usize) {
        compare(
            random,
            length,
            "totals",
            |out| (ARCHIVE.totals)(sheet, out),
            |out| (REFERENCE.totals)(sheet, out),
        );
        compare(
            random,
            length,
            "clause_counts",
            |out| (ARCHIVE.clause_counts)(sheet, out),
            |out| (REFERENCE.clause_counts)(sheet, out),
        );
        compare(
            random,
            length,
            "two_runs",
            |out| (ARCHIVE.two_runs)(sheet, start, out),
            |out| (REFERENCE.two_runs)(sheet, start, out),
        );
    }

    /// Starting words that fit, and such as do not in all ways.
    fn starts(random: &mut Random, program: &Program, start: &[u64]) -> Vec<Vec<u64>> {
        let mut starts = vec![program.random_start(random)];
        let mut one_bit_off = start.to_vec();
        one_bit_off[random.below(start.len())] ^= 1 << random.below(program.width as usize);
        starts.push(one_bit_off);
        starts.push(start[..random.below(start.len())].to_vec());
        let mut too_long = start.to_vec();
        too_long.extend((0..1 + random.below(9)).map(|_| 0));
        starts.push(too_long);
        for large in [
            1 << program.width,
            1 << random.pick(&[32, 33, 63]),
            u64::MAX,
            random.next(),
        ] {
            let mut words = start.to_vec();
            words[random.below(start.len())] = large;
            starts.push(words);
        }
        starts
    }

    /// All calls on an accepted sheet, with buffers about each need.
    fn compare_accepted(random: &mut Random, program: &Program, start: &[u64]) {
        let sheet = program.sheet();
        let _kept = KeptOnFailure(&sheet);
        let lines = program.steps.len();
        assert_eq!(compare_reading(&sheet), Ok(lines));
        for length in lengths(random, 16 * lines) {
            compare_report(random, &sheet, length);
            compare_change(random, &sheet, program.width, lines, length);
            compare_change_all(random, &sheet, program.width, lines);
        }
        let mut lent = Kept::of(&sheet);
        for length in lengths(random, lent.index.len()) {
            compare_index(random, &sheet, length);
            compare_change_indexed(random, &sheet, &lent, program.width, lines);
        }
        spoil(random, &mut lent);
        compare_change_indexed(random, &sheet, &lent, program.width, lines);
        for length in 0..5 {
            compare_small_calls(random, &sheet, start, length);
        }
        for start in starts(random, program, start) {
            let length = random.pick(&[2, 3, 3, 3, 5]);
            compare_small_calls(random, &sheet, &start, length);
        }
        let mut probe = vec![0; 4944];
        for line in [0, random.below(lines), lines - 1] {
            for length in lengths(random, 16) {
                compare_line_calls(random, &sheet, line, length);
            }
            let need = (REFERENCE.line_clauses)(&sheet, line, &mut probe).unwrap();
            for length in lengths(random, need) {
                compare_line_calls(random, &sheet, line, length);
            }
        }
        for line in [lines, lines + 1, 248, 1 << 16, 1 << 32, usize::MAX] {
            let length = random.pick(&[0, 15, 16, 5000]);
            compare_line_calls(random, &sheet, line, length);
        }
        assert!(sheet == program.sheet(), "a read-only sheet was written");
    }

    /// All calls once on any bytes.
    fn compare_any(random: &mut Random, sheet: &[u8]) -> Outcome {
        let _kept = KeptOnFailure(sheet);
        let before = sheet.to_vec();
        let answer = compare_reading(sheet);
        let line = random.pick(&[0, 0, 1, 30, 31, 247, 248, usize::MAX]);
        let length = random.pick(&[0, 1, 2, 3, 4, 15, 16, 17, 496, 3968, 5000]);
        let start: Vec<u64> = (0..random.below(10)).map(|_| random.next() >> 60).collect();
        compare_line_calls(random, sheet, line, length);
        compare_texts(random, sheet, line, length);
        compare_report(random, sheet, length);
        let width = sheet.get(4).map_or(32, |&n| u32::from(n).clamp(2, 32));
        let lines = answer.unwrap_or(20);
        compare_change(random, sheet, width, lines, length);
        compare_change_all(random, sheet, width, lines);
        compare_index(random, sheet, length);
        // A sheet that is refused has no index and no report: it is lent the example's.
        let mut lent = match answer {
            Ok(_) => Kept::of(sheet),
            Err(_) => Kept::of(&example()),
        };
        if random.one_in(4) {
            spoil(random, &mut lent);
        }
        compare_change_indexed(random, sheet, &lent, width, lines);
        compare_small_calls(random, sheet, &start, length.min(8));
        assert!(sheet == before, "a read-only sheet was written");
        answer
    }

    #[test]
    fn accepted_sheets_at_all_widths() {
        let mut random = Random::new(100);
        let (mut sheets, mut with_costly_repeats, mut sealed) = (0, 0, 0);
        for width in (2..=32).cycle().take(31 * 300) {
            let (inputs, lines) = (1 + random.below(8), random_lines(&mut random));
            let (mut program, start) = random_program(&mut random, width, inputs, lines);
            if random.one_in(2) {
                disturb(&mut random, &mut program);
            }
            compare_accepted(&mut random, &program, &start);
            let reports = REFERENCE.reports(&program.sheet());
            sheets += 1;
            with_costly_repeats += usize::from(program.has_costly_repeats(&reports));
            sealed += usize::from(program.word_xored_with_itself().is_none());
        }
        // On many sheets repeats make the totals other than plain sums.
        assert!(
            3 * with_costly_repeats > sheets,
            "{with_costly_repeats} of {sheets}"
        );
        // Most can be sealed, and some have a word XORed with itself.
        assert!(2 * sealed > sheets, "{sealed} of {sheets}");
        assert!(10 * (sheets - sealed) > sheets, "{sealed} of {sheets}");
    }

    #[test]
    fn every_line_of_full_sheets() {
        let mut random = Random::new(101);
        for width in [2, 3, 15, 16, 17, 31, 32, 32] {
            let (program, _) = random_program(&mut random, width, 8, 248);
            let sheet = program.sheet();
            let _kept = KeptOnFailure(&sheet);
            for line in 0..248 {
                compare_line_calls(&mut random, &sheet, line, 4944);
            }
        }
    }

    #[test]
    fn every_byte_damaged() {
        let mut random = Random::new(102);
        for lines in [1, 20, 31, 32, 70] {
            let width = 2 + random.below(31) as u32;
            let inputs = 2 + random.below(7);
            let (program, _) = random_program(&mut random, width, inputs, lines);
            let sheet = program.sheet();
            for at in 0..sheet.len() {
                let mut bytes = sheet.clone();
                let old = bytes[at];
                for new in [
                    old ^ 1,
                    old ^ 0x80,
                    old.wrapping_sub(1),
                    random.next() as u8,
                ] {
                    bytes[at] = new;
                    if new != old {
                        // A damage of one byte is always a wrong check.
                        let refusal = compare_any(&mut random, &bytes).unwrap_err();
                        assert_eq!((refusal.number, refusal.place), (2, at as u64 / 512));
                    }
                    let mut resealed = bytes.clone();
                    write_checks(&mut resealed);
                    compare_any(&mut random, &resealed).ok();
                }
            }
        }
    }

    #[test]
    fn damaged_fields() {
        let mut random = Random::new(103);
        let mut by_number = [0; 20];
        for _ in 0..80_000 {
            let (program, _) = random_shape(&mut random);
            let mut bytes = program.sheet();
            for _ in 0..1 + random.below(3) {
                damage_a_field(&mut random, &mut bytes);
            }
            if !random.one_in(6) {
                write_checks(&mut bytes);
            }
            match compare_any(&mut random, &bytes) {
                Ok(_) => by_number[0] += 1,
                Err(refusal) => by_number[refusal.number as usize] += 1,
            }
        }
        // Every question about a sheet's contents has been answered no.
        assert!(
            by_number[2..=16].iter().all(|&times| times > 20),
            "{by_number:?}"
        );
    }

    #[test]
    fn words_xored_with_themselves() {
        let mut random = Random::new(107);
        let mut met = Met::default();
        for _ in 0..100_000 {
            let bytes = random_sheet_to_seal(&mut random);
            compare_any(&mut random, &bytes).ok();
            met.count(&bytes);
        }
        met.assert_all();
    }

    #[test]
    fn records_and_blocks_out_of_place() {
        let mut random = Random::new(104);
        for _ in 0..10_000 {
            let (program, _) = random_shape(&mut random);
            let mut bytes = program.sheet();
            let blocks = bytes.len() / 512;
            match random.below(4) {
                // Another record: lines that name later words.
                0 => {
                    let block = 512 * (1 + random.below(blocks - 1));
                    let from = block + 16 * random.below(31);
                    let to = block + 16 * random.below(31);
                    bytes.copy_within(from..from + 16, to);
                }
                // Another block.
                1 => {
                    let (from, to) = (512 * random.below(blocks), 512 * random.below(blocks));
                    bytes.copy_within(from..from + 512, to);
                }
                // One block more or fewer.
                2 => bytes.resize(512 * (blocks + 1), 0),
                _ => bytes.truncate(512 * (blocks - 1)),
            }
            compare_any(&mut random, &bytes).ok();
            write_checks(&mut bytes);
            compare_any(&mut random, &bytes).ok();
        }
    }

    #[test]
    fn any_length() {
        let mut random = Random::new(105);
        let (program, _) = random_program(&mut random, 32, 8, 248);
        let mut bytes = program.sheet();
        bytes.resize(6000, 0);
        for length in (0..4700).chain((4700..=6000).step_by(50)) {
            compare_any(&mut random, &bytes[..length]).ok();
        }
        for length in (0..=6144).step_by(512) {
            bytes.resize(length, 0);
            write_checks(&mut bytes);
            compare_any(&mut random, &bytes).ok();
        }
    }

    #[test]
    fn noise() {
        let mut random = Random::new(106);
        for _ in 0..3000 {
            let length = random.pick(&[512, 1024, 1536, 4608, 5120]);
            let mut bytes: Vec<u8> = (0..length).map(|_| random.next() as u8).collect();
            // The further into the questions, the better.
            if random.one_in(2) {
                bytes[..6].copy_from_slice(&[0x41, 0x52, 0x58, 0x54, 32, 8]);
            }
            if random.one_in(2) {
                bytes[6..8].copy_from_slice(&[(length / 512 * 31 - 31) as u8, 0]);
                bytes[40..508].fill(0);
            }
            if random.one_in(2) {
                write_checks(&mut bytes);
            }
            compare_any(&mut random, &bytes).ok();
        }
    }
}
