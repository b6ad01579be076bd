"""The cases of changing a stated difference and of trying a change (document 02, W-206) that crates/change_cases runs, and the
answers that it has to give. Both come from this file, the sheets of examples/ and oracle/trail.py, an independent reading of
documents 01 and 02.

A case is a line `NAME: SHEET; LINE DIFFERENCE LINE DIFFERENCE ..`: a sheet, given sealed as `LENGTH OFFSET=VALUE ..`, and changes
that are made one after the other. Each is answered by what changing answers, the bytes that it changes, and what reading says of
the sheet afterwards; then by what trying it on the sheet before answers, for a buffer one byte short of the need, one that just
holds the reports, and one that is five bytes longer: the answer, a checksum of what has changed in the buffer and behind it, 0
where nothing has, and whether answer and bytes are those of changing a copy and reporting on it. All bytes are A5 before.

A case `claim` has two changes: the first is tried, and held against a copy that has the second. Most of these are not the same, so
that a comparison that calls all trials the same is found out.
"""
from pathlib import Path
from random import Random

from clause_cases import altered, some_sheet, some_words, with_run
from join_cases import BEFORE, chain, checksum_of, sheet_text
from oracle.trail import (AMOUNT_KINDS, BLOCK, CARRY_KINDS, CONSTANT_KINDS, KINDS, MAX_LINES, PER_BLOCK, RECORD, TWO_WORD_KINDS,
                          Line, Refused, Sheet, change, line_report, read, record_at, report, seal_bytes, trial)
from report_cases import spread
from sheet_cases import listed, off, outcome, plain, put, put_field, resized

EXAMPLES = Path(__file__).resolve().parent.parent / "examples"
# The largest number that a call can be given, and the program's room for a buffer.
MOST, ROOM = 2**64 - 1, 2**12

# The program's two texts, line by line.
cases, answers = [], []


# A case and its answer

def line_count(data):
    try:
        return len(read(data).lines)
    except Refused:
        return 0


def tried(data, k, difference, length):
    """What trying a change answers for a buffer of a length, and the program's room for it afterwards."""
    try:
        reports = trial(data, k, difference, length)
        answer = f" written {len(reports)}"
    except Refused as refused:
        reports, answer = b"", f" {refused}"
    return answer, reports + bytes([BEFORE]) * (ROOM - len(reports))


def trials(data, tried_change, made_change):
    """A change, tried and held against a copy that has the same change or another."""
    need, text = RECORD * line_count(data), ""
    for length in (need - 1, need, need + 5):
        if 0 <= length:
            answer, after = tried(data, *tried_change, length)
            verdict = "as reported" if (answer, after) == tried(data, *made_change, length) else "not as reported"
            text += f"\n  buffer of {length}{answer}, checksum {checksum_of(b ^ BEFORE for b in after)}, {verdict}"
    return text


def is_local(data, after, k):
    """Whether the bytes apart are of line k's difference and its block's check, and the reports apart are of line k and of lines
    that name its word."""
    at, block = record_at(k) + 12, BLOCK * (1 + k // PER_BLOCK)
    places = [*range(at, at + 4), *range(block + 508, block + 512)]
    sheet, word = read(data), read(data).m + k
    naming = [j for j, line in enumerate(sheet.lines)
              if line.first == word or line.kind in TWO_WORD_KINDS and line.second == word]
    return (all(x == y or i in places for i, (x, y) in enumerate(zip(data, after)))
            and all(x == y or j in (k, *naming) for j, (x, y) in enumerate(zip(report(sheet), report(read(after))))))


def changed(data, k, difference, refusal=None):
    """The bytes after a change, and what the program has to print of it. It has to be refused so, or made: then the case is what
    its name says."""
    try:
        after, answer = change(data, k, difference), " changed"
        assert is_local(data, after, k)
    except Refused as refused:
        after, answer = data, f" {refused}"
    assert answer == (f" refused {refusal}" if refusal else " changed"), (answer, refusal)
    bytes_apart = listed((i, b) for i, b in enumerate(after) if b != data[i])
    return after, (f"\n  line {k} to {difference}{answer}{bytes_apart}, read{outcome(after, False)}"
                   f"{trials(data, (k, difference), (k, difference))}")


def add_case(name, data, changes, answer):
    assert ":" not in name and f"{name}:" not in (line[:len(name) + 1] for line in cases), name
    cases.append(f"{name}: {sheet_text(data)};{''.join(f' {k} {difference}' for k, difference, *_ in changes)}\n")
    answers.append(f"{name}:{answer}\n")


def add(name, data, *changes):
    """A case of a sheet and of changes, each a line and a difference and, where it is refused, the refusal. Returns the sheet's
    bytes after each of them, those before first."""
    sheets, answer = [data], ""
    for one in changes:
        after, text = changed(sheets[-1], *one)
        sheets.append(after)
        answer += text
    add_case(f"edit {name}", data, changes, answer)
    return sheets


def add_refused(name, data, refusal, *changes):
    """Changes that are all refused so."""
    assert set(add(name, data, *[(k, difference, refusal) for k, difference in changes])) == {data}


# The kinds

def line_of(n, kind, first, other, k):
    """A line on a word, and where the kind takes two words on another one as well."""
    line = Line(kind, first=first)
    line.amount = 1 + k % (n - 1) if kind in AMOUNT_KINDS else 0
    line.second = other if kind in TWO_WORD_KINDS else 0
    line.constant = spread(n, k + 5) if kind in CONSTANT_KINDS else 0
    return line


def around(n, kind, random):
    """A sheet whose line 0 has this kind, and whose other lines name its word: nine as the first operand, three as the second.
    Some starting value follows it."""
    lines = [line_of(n, kind, 0, 1, 0)]
    lines += [line_of(n, k, 2, 1, k) for k in KINDS]
    lines += [line_of(n, k, 1, 2, k) for k in TWO_WORD_KINDS]
    return with_run(n, some_words(n, 2, random), lines, some_words(n, 2, random))


def stating(sheet, difference):
    """The sheet with another difference at line 0."""
    return altered(sheet, 0, sheet.lines[0].difference ^ difference)


def tells(sheet, one, two):
    """Whether two differences of line 0 tell. With the first, each line whose kind has several possible reports has another one.
    With the second, line 0 is impossible. Every line has another report with one of them."""
    rows = list(zip(sheet.lines, *map(report, (sheet, stating(sheet, one), stating(sheet, two)))))
    return (all(0 < first[0] and first != was for line, was, first, _ in rows if line.kind in CARRY_KINDS)
            and rows[0][3][0] == 0 and all(was != first or was != second for _, was, first, second in rows))


def telling(n, kind):
    """A sheet around a line of this kind, and two differences that tell."""
    random = Random(kind)
    while True:
        sheet = around(n, kind, random)
        one, two = sheet.lines[0].difference ^ 3 << random.randrange(n - 1), random.randrange(2**n)
        if tells(sheet, one, two):
            return sheet, one, two


def kinds():
    """Every kind as the changed line, and every kind as lines that name its word; and back."""
    for kind, n in zip(KINDS, (5, 32, 8, 31, 24, 16, 6, 13, 32)):
        sheet, one, two = telling(n, kind)
        sheets = add(f"of kind {kind} at width {n}, with its word named by every kind, and back", sheet.pack(),
                     (0, one), (0, two), (0, sheet.lines[0].difference))
        assert sheets[3] == sheets[0]
    # At width 2 there are not enough possible reports for that.
    sheet = around(2, 9, Random(1))
    reports = [report(read(data)) for data in add("of kind 9 at width 2, with its word named by every kind, to all differences",
                                                  sheet.pack(), *[(0, difference) for difference in range(4)])]
    assert all(len(set(rows)) > 1 for rows in zip(*reports))


def self_xors():
    """Words XORed with themselves, which sealing refuses. Such a line's report hangs on its own difference alone."""
    sheet = Sheet(8, [2, 3], [Line(2, difference=2), Line(1, first=2, second=2), Line(1)])
    for data in add("of words XOR themselves", sheet.pack(), (0, 7), (1, 1), (2, 255), (1, 0)):
        assert outcome(data, True) == " refused 23 1"


# Places

def places():
    """First and last lines, and lines at block borders. Each line but the first names the word of the line before."""
    for count, lines in ((1, (0,)), (PER_BLOCK, (0, 30)), (PER_BLOCK + 1, (30, 31)),
                         (MAX_LINES, (0, 30, 31, 61, 62, 216, 217, 247))):
        add(f"in a chain of {count} lines, at {' '.join(map(str, lines))}", chain(1, count), *[(k, 1 + k % 3) for k in lines])
    # Words have other numbers after more inputs.
    add("in a chain after 8 inputs", chain(8, 16), (0, 1), (7, 2), (8, 3), (15, 1))


def named_by_ten():
    """Ten lines name a word: in one block, and in every block, with other lines between them."""
    sums = [Line(6, first=1, constant=k, difference=4) for k in range(10)]
    add("of a word that the ten next lines name", Sheet(4, [4], [Line(2, difference=4)] + sums).pack(), (0, 12), (0, 0), (0, 4))
    lines = [Line(2) for _ in range(MAX_LINES)]
    for k in (8, 38, 39, 69, 100, 131, 162, 193, 224, 247):
        lines[k].first = 8
    sheets = add("of a word that ten lines in all blocks name", Sheet(2, [0], lines).pack(), (7, 3), (7, 0))
    assert [sum(number == 0 for number, *_ in report(read(data))) for data in sheets] == [0, 11, 0]


def checks():
    """Sums that pass 2^32 in the check, and one block's check alone that is renewed."""
    most = 2**32 - 1
    for count in (1, PER_BLOCK, PER_BLOCK + 1):
        lines = [Line(2, constant=most, difference=most)] * 2 + [Line(2)] * (count - 2)
        lines[count - 1:] = [Line(6, constant=most, difference=most)]
        add(f"of the last of {count} lines, where sums pass 2^32", Sheet(32, [most], lines).pack(),
            *[(count - 1, difference) for difference in (0, 1, 2**31, most)])


# Differences

def again():
    """The difference that the line has already."""
    sheet = Sheet(8, [1, 2], [Line(5, second=1, difference=3), Line(3, 1, first=2, difference=6)])
    assert set(add("to the difference that is there", sheet.pack(), (0, 3), (1, 6))) == {sheet.pack()}
    sheets = add("to the same difference twice", sheet.pack(), (0, 255), (0, 255), (1, 0), (1, 0))
    assert sheets[1] == sheets[2] != sheets[3] == sheets[4]


def limits():
    """Differences at the width's end, and past it with low bits that would pass."""
    for n in (2, 8, 17, 31, 32):
        past = sorted({2**n, 2**n + 1, 2**32 - 1, 2**32, 2**63, MOST} | {2**i + 1 for i in (8, 16, 32, 40)})
        add(f"to differences at the end of width {n}", plain(n, 2, 3), (2, 2**n - 1), (2, 0), (0, 2**n - 1),
            *[(i % 3, difference, f"14 {i % 3}") for i, difference in enumerate(past) if 2**n <= difference], (1, 2**n - 2))


def line_numbers():
    """Lines past the last, of numbers that a smaller type or a product with a record's size would bring back to a line."""
    for count in (1, PER_BLOCK, MAX_LINES):
        past = sorted({count, count + 1, PER_BLOCK, 2 * PER_BLOCK} | {2**i for i in (8, 16, 32, 60, 63)} | {2**32 + 1, MOST})
        add_refused(f"of lines past the last of {count}", plain(8, 1, count), "17 0", *[(k, 5) for k in past if count <= k])


def possible_and_back():
    """All differences of document 01's example, of which three cannot be, and a line that is a copy of another one no longer."""
    sheet = Sheet(2, [1], [Line(6, constant=1, difference=3)])
    sheets = add("of document 01's example", sheet.pack(), (0, 0), (0, 1), (0, 2), (0, 3))
    assert [line_report(read(data), 0)[0] for data in sheets] == [3, 0, 0, 0, 3]
    copies = Sheet(4, [4], [Line(6, constant=3, difference=12)] * 3)
    add("of one of three equal lines, and of another", copies.pack(), (1, 4), (0, 4), (2, 8))


def lea():
    """The trail of LEA that cannot be as it is printed. Two lines state the misprinted word, the second after a rotation."""
    printed, right = ((EXAMPLES / f"{name}.sheet").read_bytes() for name in ("lea7_printed", "lea7"))
    known = [line.difference for line in read(right).lines]
    sheets = add("of LEA's misprinted word", printed, (138, known[138]), (139, known[139]))
    assert sheets[2] == right
    assert [[k for k, (number, *_) in enumerate(report(read(data))) if number == 0] for data in sheets] == [[138], [139], []]


# Refusals

def refused_sheets():
    """By the reading, before anything is asked of line and difference, also where the change would mend what is wrong."""
    good = Sheet(8, [1, 2], [Line(1, second=1, difference=3), Line(2, first=2, difference=3), Line(6, difference=1)]).pack()
    two = plain(8, 2, PER_BLOCK + 1)
    for name, data, refusal in (
            ("no bytes", b"", "1 0"),
            ("a byte too few", good[:-1], "1 0"),
            ("a block more than any sheet", resized(good, 10 * BLOCK), "1 0"),
            ("a wrong check in block 0", off(good, 0, 1), "2 0"),
            ("a wrong check in the line's block", off(good, 1, 1), "2 1"),
            ("a wrong check in another block", off(two, 2, 1), "2 2"),
            ("width 33", seal_bytes(put(good, 4, 33)), "4 0"),
            ("no lines", seal_bytes(put(good, 6, 0)), "6 0"),
            ("kind 10 in line 1", seal_bytes(put_field(good, 1, "kind", 10)), "9 1"),
            ("difference 2^8 in line 1", seal_bytes(put_field(good, 1, "difference", 2**8)), "14 1"),
            ("1 in the zero field of line 2", seal_bytes(put_field(good, 2, "zero field", 1)), "15 2"),
            ("a byte after the lines", seal_bytes(put(good, BLOCK + 500, 1)), "16 1")):
        add_refused(f"with {name}", data, refusal, (1, 3), (0, 2**8), (99, 3), (MOST, MOST))


def orders():
    """17 before 14. That both come before 18, and the reading too, the buffer that is too short shows everywhere."""
    add_refused("of a line past the last to a difference past the width", plain(8, 2, 3), "17 0", (3, 2**8), (MOST, MOST))
    add("of lines of 248 to a difference past the width", plain(8, 2, MAX_LINES),
        *[(k, 2**8, f"14 {k}") for k in (0, 30, 31, MAX_LINES - 1)], (MAX_LINES, 2**8, "17 0"))


# Changes at random

def some_change(sheet, random):
    """Mostly of a line that the sheet has, in few bits of its difference, and mostly of bits that the width has."""
    k = random.randrange(len(sheet.lines) + random.randrange(2))
    if len(sheet.lines) <= k:
        return k, random.randrange(2**64), "17 0"
    difference = sheet.lines[k].difference ^ random.choice((1, 3)) << random.randrange(sheet.n)
    return k, difference, f"14 {k}" if 2**sheet.n <= difference else None


def is_seen(sheet, changes):
    """Whether some change gives another line another report that is not impossible."""
    data = sheet.pack()
    after = {k: report(read(change(data, k, difference))) for k, difference, refusal in changes if not refusal}
    return any(j != k and 0 < row[0] and row != was
               for k, rows in after.items() for j, (row, was) in enumerate(zip(rows, report(sheet))))


def some_changes(n, random):
    """A sheet, and four changes."""
    while True:
        sheet = some_sheet(n, random.randrange(2, 9), random.choices(KINDS, k=random.randrange(2, 8)), random)
        changes = [some_change(sheet, random) for _ in range(4)]
        if is_seen(sheet, changes):
            return sheet, changes


def random_changes():
    random = Random(9)
    for i in range(12):
        sheet, changes = some_changes((3, 4, 6, 11, 20, 32)[i % 6], random)
        add(f"at random, {i}", sheet.pack(), *changes)


# The comparison itself. All trials above are right, so a comparison that says so of every trial would not show in them.

# The last line names the first one's word.
CLAIMED = Sheet(4, [1, 0], [Line(2, difference=1), Line(5, second=1, difference=1),
                            Line(6, first=2, constant=1, difference=2)])
# A change that is tried, one that the copy has, and in how many of the three buffers they come to the same: a buffer that is too
# short is refused alike for all changes that are made.
CLAIMS = {
    "the same change": ((0, 1), (0, 1), 3),
    "a change to another report of the line": ((1, 1), (1, 3), 1),
    "a change to another report of a line that names its word": ((0, 2), (0, 3), 1),
    "a change of another line": ((1, 2), (2, 2), 1),
    "a change to the same reports": ((1, 4), (1, 8), 3),
    "a change, and a refusal": ((0, 1), (0, 16), 0),
    "a refusal, and a change": ((0, 16), (0, 1), 0),
    "the same refusal": ((3, 1), (MOST, 16), 3),
    "refusals of two numbers": ((0, 16), (3, 16), 0),
    "refusals of two places": ((1, 16), (2, 16), 0),
}


def claims():
    data = CLAIMED.pack()
    for name, (one, other, same) in CLAIMS.items():
        text = trials(data, one, other)
        assert text.count(", as reported") == same and text.count(", not as reported") == 3 - same, name
        add_case(f"claim of {name}", data, (one, other), text)


def texts():
    """The lines of all cases, and of their answers."""
    for group in (kinds, self_xors, places, named_by_ten, checks, again, limits, line_numbers, possible_and_back, lea,
                  refused_sheets, orders, random_changes, claims):
        group()
    return cases, answers
