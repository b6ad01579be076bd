"""What the two programs are run on, and what they have to print: stdin and stdout of the crates trail_report and
trail_clauses, a sheet of 248 lines each; and the cases of the same texts of several sheets, which crates/cases runs, with the
sheets in its folder data. All of it comes from documents 01 and 02, from this file, the sheets of examples/ and
oracle/trail.py, an independent reading of the documents.

A case is a line `TEXT FILE`: the text that is printed, and the file of the sheet. The texts are `report`, `clauses`, and
`header`, which is the first line of the clauses; and `digest`, a checksum of all parts of the clauses.
"""
from math import log2
from pathlib import Path

from oracle.trail import (BLOCK, CARRY_KINDS, KINDS, MAX_LINES, Line, Sheet, clauses_text, read, repeats, report, report_text,
                          seal_bytes, totals, variables)
from report_cases import difference_made, some_line, spread, trail
from sheet_cases import put, put_field

ROOT = Path(__file__).resolve().parent.parent
# The largest width, input count and sheet.
WIDTH, INPUTS, MOST_BYTES = 32, 8, 4608

# Document 01's example, byte by byte, and what it prints.
EXAMPLE = (bytes.fromhex("41 52 58 54 02 01 01 00 01") + bytes(499) + bytes.fromhex("44 53 59 54")
           + bytes.fromhex("06 00 00 00 00 00 00 00 01 00 00 00 03 00 00 00") + bytes(492) + bytes.fromhex("0B 00 00 00"))
EXAMPLE_REPORT = "0 counted 0 1 4\ntotal 0 0 1\n"
EXAMPLE_CLAUSES = """\
p cnf 6 16
1 3 0
-1 -3 0
1 -5 0
-1 5 0
2 5 -4 0
2 -5 4 0
-2 5 4 0
-2 -5 -4 0
-1 -3 0
1 3 0
-1 -6 0
1 6 0
2 6 4 0
2 -6 -4 0
-2 6 -4 0
-2 -6 4 0
"""


def write(crate, stdin, stdout):
    (ROOT / "crates" / crate / "stdin").write_bytes(stdin)
    (ROOT / "crates" / crate / "stdout").write_text(stdout)
    print(f"{crate}: {len(stdin)} bytes in, {len(stdout)} out")


# The programs' own sheets: as long as a sheet can be, and with numbers of as many digits as the text allows, so that a text
# that is cut short or a number that loses a digit shows.

# The report sheet's input differences: all bits, no bit, every other bit, one bit or two, and two of no such kind.
ALL_BITS, NO_BIT, OTHER_BITS, FEW_BITS = 0, 1, 2, (3, 4, 5)
REPORT_INPUTS = [0xFFFFFFFF, 0, 0x55555555, 0x80000000, 0x10000000, 0x00800010, spread(WIDTH, 1), spread(WIDTH, 2)]


def report_line(k):
    """Line k of the report sheet, with values of its operands that the stated difference is to fit. Of twelve lines, one is
    the sum that costs most, always the same, three have most chains, one has a large N, and seven are of any kind."""
    turn, dozen = k % 12, k // 12
    if turn == 0:
        return Line(5, first=ALL_BITS, second=NO_BIT), 0, 0
    if turn <= 3:
        return Line(6, first=OTHER_BITS, constant=spread(WIDTH, k) & 0xAAAAAAAA), 0, 0
    if turn == 4:
        return Line(6, first=FEW_BITS[dozen % 3], constant=spread(WIDTH, k)), spread(WIDTH, k + 3), 0
    return some_line(KINDS[(turn + dozen) % len(KINDS)], WIDTH, INPUTS + k, k), spread(WIDTH, k + 3), spread(WIDTH, k + 5)


def report_sheet():
    """All reports of all kinds; five lines of twelve are impossible, since their lowest bit is wrong."""
    sheet = Sheet(WIDTH, REPORT_INPUTS, [])
    for k in range(MAX_LINES):
        line, x, y = report_line(k)
        line.difference = difference_made(sheet, line, x, y) ^ int(k % 12 >= 7)
        sheet.lines.append(line)
    kinds = {(number, line.kind) for (number, *_), line in zip(report(sheet), sheet.lines)}
    certain = {(1, kind) for kind in KINDS if kind not in CARRY_KINDS}
    assert kinds == {(0, kind) for kind in KINDS} | certain | {(2, 5), (2, 9), (3, 6)}
    most = [max(column) for column in zip(*report(sheet))]
    assert most == [3, 496, 16, 2**32] and all(least <= total for least, total in zip((100, 10000, 1000), totals(sheet)))
    # The sum that costs most stands there 21 times, and is charged once.
    assert sum(weight for _, weight, _, _ in report(sheet)) - totals(sheet)[1] == 20 * 496
    return sheet.pack()


def clause_kind(k):
    """Few lines with carries, whose clauses are many, and yet enough of them that the carries have numbers of five digits."""
    if k % 62 == 61:
        return 5 if k % 124 == 61 else 9
    if k % 9 == 4:
        return 6
    return 1 if k % 31 == 0 else (2, 3, 4, 7, 8)[k % 5]


def clause_sheet():
    data = trail(WIDTH, INPUTS, MAX_LINES, clause_kind)
    assert {line.kind for line in read(data).lines} == set(KINDS) and 10000 <= variables(read(data))
    return data


def own_sheets():
    for crate, data, text in (("trail_report", report_sheet(), report_text), ("trail_clauses", clause_sheet(), clauses_text)):
        assert len(data) == MOST_BYTES
        write(crate, data, text(data))


# The sheets of the cases

def header_text(data):
    return clauses_text(data).split("\n")[0] + "\n"


def digest_text(data):
    """From 1 on, for each byte: 1,000,003 times the checksum, plus the byte, modulo the prime 2^32 - 5. Parts past the last, up to
    part 249, are refused by 17, and count as 1017."""
    checksum = 1
    for number in [*clauses_text(data).encode(), *[1017] * (MAX_LINES + 1 - len(read(data).lines))]:
        checksum = (1000003 * checksum + number) % (2**32 - 5)
    return f"{checksum}\n"


TEXTS = {"report": report_text, "clauses": clauses_text, "header": header_text, "digest": digest_text}

# The program's two texts, case by case.
cases, answers = [], []


def add(name, data, texts, start=""):
    """Cases of one sheet. Its texts have to begin so, and so it is what its name says."""
    (ROOT / "crates" / "cases" / "data" / f"{name}.sheet").write_bytes(data)
    for text in texts:
        assert TEXTS[text](data).startswith(start), name
        cases.append(f"{text} {name}.sheet\n")
        answers.append(f"{text} {name}.sheet:\n{TEXTS[text](data)}")


def largest():
    """The most lines, all of the kind that costs most and has most clauses; no two are equal, as each adds to the last word."""
    firsts = [ALL_BITS] + [INPUTS + k for k in range(MAX_LINES - 1)]
    lines = [Line(5, first=first, second=NO_BIT, difference=REPORT_INPUTS[ALL_BITS]) for first in firsts]
    return Sheet(WIDTH, REPORT_INPUTS, lines).pack()


def far_copies():
    """The largest with two copies at its end: of the line before, which is charged last, and of line 0, which is charged first.
    A program that keeps too few lines, or those of one block alone, charges one of the copies."""
    sheet = read(largest())
    sheet.lines[-2:] = sheet.lines[-3], sheet.lines[0]
    return sheet.pack()


def equal_lines():
    """The most lines, all of them document 01's (3,4,12), which costs 8 sixteenths and has one chain."""
    return Sheet(4, [4], [Line(6, constant=3, difference=12)] * MAX_LINES).pack()


def self_xors():
    """Words XORed with themselves, which sealing alone refuses: one certain, one impossible."""
    return Sheet(2, [1], [Line(1), Line(6, constant=1, difference=3), Line(1, first=2, second=2, difference=1)]).pack()


def add_whole(name, data, total, header):
    """Cases of a sheet that is accepted, with its totals and both counts of its clauses."""
    add(name, data, ("report", "header"))
    assert answers[-2].endswith(f"\ntotal {total}\n") and answers[-1].endswith(f":\np cnf {header}\n"), name


def accepted_sheets():
    add("example", EXAMPLE, ("report", "clauses"))
    add("all_kinds", trail(8, 2, 12), ("report", "clauses"))
    add("self_xors", self_xors(), ("report", "clauses"))
    add_whole("largest", largest(), "0 123008 0", "23568 246016")
    # Most of its carries have numbers of five digits.
    assert sum(len(word) >= 5 for word in clauses_text(largest()).replace("-", "").split()[4:]) > 250000
    add("largest", largest(), ("digest",))
    add("lea7", (ROOT / "examples" / "lea7.sheet").read_bytes(), ("digest",))
    add_whole("far_copies", far_copies(), f"0 {246 * 496} 0", "23568 246016")
    # Copies have carries and clauses as any line has: here 6 and 48.
    add_whole("equal_lines", equal_lines(), "0 8 1", f"{4 * 249 + 6 * 248} {48 * 248}")
    for name, total in (("lea7", "total 0 622 6"), ("lea7_printed", "total 1 574 6"), ("xtea27", "total 0 765 10")):
        add(name, (ROOT / "examples" / f"{name}.sheet").read_bytes(), ("report",))
        assert answers[-1].endswith(f"\n{total}\n")


def table_12():
    """Source document 000's Table 12 charges XTEA's encryption 40 bits, its key additions 6.893, and a repeated one once."""
    sheet = read((ROOT / "examples" / "xtea27.sheet").read_bytes())
    charged = [r for k, r in enumerate(report(sheet)) if not repeats(sheet, k)]
    assert sum(weight for number, weight, _, _ in charged if number == 2) == 16 * 40
    assert abs(sum(sheet.n - log2(fitting) for number, _, _, fitting in charged if number == 3) - 6.893) < 0.0005


def refused_sheets():
    good = trail(8, 2, 12)
    for name, data, refusal in (
        ("no_bytes", b"", "1 0"),
        ("one_byte_fewer", largest()[:-1], "1 0"),
        ("one_byte_more", largest() + bytes(1), "1 0"),
        ("one_block_more", largest() + bytes(BLOCK), "1 0"),
        ("wrong_check", put(good, 2 * BLOCK - 1, good[-1] ^ 1), "2 1"),
        ("unknown_kind", seal_bytes(put_field(good, 3, "kind", 10)), "9 3"),
        ("unused_field", seal_bytes(put_field(largest(), MAX_LINES - 1, "amount", 1)), "15 247"),
    ):
        add(name, data, ("report", "clauses"), f"refused {refusal}\n")


def texts():
    """The lines of all cases, and their answers; on the way the sheets of the two programs and of the cases are written."""
    assert report_text(EXAMPLE) == EXAMPLE_REPORT and clauses_text(EXAMPLE) == EXAMPLE_CLAUSES
    own_sheets()
    accepted_sheets()
    table_12()
    refused_sheets()
    return cases, answers
