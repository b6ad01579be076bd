//! The package's own writer of decimal text, and a program's input. The calls for
//! texts are in `text_parts.rs`.

mod common;

use common::Random;
use tablegull::text::{read_input, TextWriter};

fn written(write: impl FnOnce(&mut TextWriter<&mut Vec<u8>>)) -> String {
    let mut bytes = Vec::new();
    let mut writer = TextWriter::new(&mut bytes);
    write(&mut writer);
    writer.flush().unwrap();
    String::from_utf8(bytes).unwrap()
}

#[test]
fn numbers_of_all_lengths() {
    let mut random = Random::new(11);
    let mut numbers = vec![0, 1 << 32, u64::MAX];
    for power in 0..20 {
        let ten = 10u64.pow(power);
        numbers.extend([ten - 1, ten, ten + 1]);
    }
    numbers.extend((0..20_000).map(|_| random.next() >> random.below(64)));
    let text = written(|writer| {
        for &number in &numbers {
            writer.number(number, b'\n').unwrap();
        }
    });
    let expected: String = numbers.iter().map(|number| format!("{number}\n")).collect();
    assert!(text == expected);
}

#[test]
fn clauses_with_all_literals() {
    let mut random = Random::new(12);
    let mut list = vec![i32::MIN, i32::MAX, 0];
    for variable in 1..=23_568 {
        list.extend([variable, -variable]);
        if random.one_in(4) {
            list.push(0);
        }
    }
    list.push(0);
    let text = written(|writer| {
        writer.text("p cnf\n").unwrap();
        writer.clauses(&list).unwrap();
    });
    let expected: String = list
        .iter()
        .map(|literal| match literal {
            0 => "0\n".to_string(),
            literal => format!("{literal} "),
        })
        .collect();
    assert!(text == format!("p cnf\n{expected}"));
}

#[test]
fn input_is_read_to_one_byte_past_a_sheet() {
    for (length, read) in [(0, 0), (4608, 4608), (4609, 4609), (9999, 4609)] {
        let input = vec![7; length];
        assert_eq!(read_input(&input[..]).unwrap().len(), read);
    }
}
