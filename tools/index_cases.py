"""The cases of a sheet's index, and of a change that is lent index and report (document 02, W-208), that crates/index_cases runs,
and the answers that it has to give. Both come from this file and from oracle/trail.py, an independent reading of documents 01 and
02, alone. Every index is counted here once more: for each word all records of the sheet's bytes are gone through. And every report
that a change renews is made here once more from the one before, with other reports for the changed line and the lines that the
index has for its word.

A case `index ..: SHEET + LENGTH` has a sheet, given sealed as `LENGTH OFFSET=VALUE ..`, and the length of a buffer, most often one
number short of the need. It is answered by what the call answers for a buffer of this length, one that is a number longer, and one
that is four numbers longer, and by all numbers of the buffer afterwards. Each is 999 before.

A case `renewing ..: SHEET + REPORT; COUNT NUMBER NUMBER .. LINE DIFFERENCE LINE DIFFERENCE ..` has a sheet, a report buffer, given
as a sheet is, an index of COUNT numbers, and changes that are made one after the other, each lent both. Each is answered by what the
call answers, the bytes that it changes in the sheet, and a checksum of the report buffer afterwards. Then sheet, index and report are
held against a copy of the sheet, in which the change call makes each change that was made, and against the index and the report
buffer that are made afresh of it: each of the three is `same` or `other`.

A case `claim` has two changes. The first is made by the call, the copy has the second, and the bytes told are those that are not the
copy's. Most of these are not the same, so that a comparison that calls all the same is found out. Then the call is made for the copy,
lent what the first call left: it has to refuse by 26 exactly where the comparison tells another report. That is also what a plain
change between two calls comes to.
"""
from random import Random

from change_cases import is_local, telling
from clause_cases import some_sheet
from join_cases import chain, checksum_of, sheet_text
from oracle.trail import (AMOUNT_KINDS, BLOCK, CARRY_KINDS, KINDS, MAX_LINES, PER_BLOCK, RECORD, TWO_WORD_KINDS, Line, Refused,
                          Sheet, change, change_indexed, index, read, record_at, report_bytes, seal_bytes)
from sheet_cases import listed, off, outcome, plain, put, put_field, resized

# The largest number that a call can be given, and the most numbers that an index has.
MOST, MOST_NUMBERS = 2**64 - 1, 752
# What stands in an index buffer before, and the program's room for one.
BEFORE, ROOM = 999, 768

# The program's two texts, line by line.
cases, answers = [], []


# An index, and what it tells of a change

def names(record, word):
    """Whether a record names a word as an operand that its kind uses."""
    first, second = (int.from_bytes(record[at:at + 2], "little") for at in (2, 4))
    return first == word or record[0] in (1, 5, 9) and second == word


def scanned(data):
    """The index of a sheet, by a scan of all records for each word."""
    count, numbers = int.from_bytes(data[6:8], "little"), []
    records = [data[record_at(k):][:RECORD] for k in range(count)]
    for word in range(data[5] + count):
        naming = [k for k, record in enumerate(records) if names(record, word)]
        numbers += [len(naming)] + naming
    return numbers


def own(data):
    """A sheet's index and report buffer."""
    numbers = index(data, MOST_NUMBERS)
    assert numbers == scanned(data)
    return numbers, report_bytes(read(data))


def lines_in(numbers, word):
    """The lines that an index has for a word."""
    at = 0
    for _ in range(word):
        at += 1 + numbers[at]
    return numbers[at + 1:at + 1 + numbers[at]]


def renewed(after, numbers, reports, k):
    """A report buffer with the reports that a changed sheet has at line k and at the lines that name its word."""
    out, fresh = bytearray(reports), report_bytes(read(after))
    for line in [k] + lines_in(numbers, read(after).m + k):
        out[RECORD * line:RECORD * (line + 1)] = fresh[RECORD * line:RECORD * (line + 1)]
    return bytes(out)


# A case and its answer

def add_case(name, text, answer):
    assert not set(name) & set(":+;") and f"{name}:" not in (line[:len(name) + 1] for line in cases), name
    cases.append(f"{name}: {text}\n")
    answers.append(f"{name}:{answer}\n")


def buffer_answer(data, length):
    try:
        numbers = index(data, length)
        assert numbers == scanned(data)
        answer = f"written {len(numbers)}"
    except Refused as refused:
        numbers, answer = [], str(refused)
    after = numbers + [BEFORE] * (length - len(numbers))
    return f"\n  buffer of {length} {answer}:{''.join(f' {number}' for number in after)}"


def add_buffers(name, data, length):
    """A case of an index; tells what is answered for each buffer."""
    assert length + 4 <= ROOM, name
    buffers = [buffer_answer(data, length + longer) for longer in (0, 1, 4)]
    add_case(f"index {name}", f"{sheet_text(data)} + {length}", "".join(buffers))
    return buffers


def add_index(name, data, numbers=None, length=None):
    """A case of an index of these numbers, so that it is what its name says. The buffer is one number short of the need if there is
    no other length."""
    made = index(data, MOST_NUMBERS)
    assert numbers in (None, made), (name, made)
    add_buffers(name, data, len(made) - 1 if length is None else length)


def add_no_index(name, data, refusal):
    """A case that is refused so in each of the buffers."""
    for text in add_buffers(name, data, len(INDEX) - 1):
        assert f" refused {refusal}:" in text, (name, text)


def call(data, numbers, reports, k, difference):
    """What the call answers, and sheet and report buffer afterwards."""
    try:
        after, fresh = change_indexed(data, numbers, reports, k, difference)
        assert is_local(data, after, k) and fresh == renewed(after, numbers, reports, k) and own(after) == (numbers, fresh)
        return " changed", after, fresh
    except Refused as refused:
        return f" {refused}", data, reports


def call_text(k, difference, answer, before, after, reports):
    bytes_apart = listed((i, b) for i, b in enumerate(after) if b != before[i])
    return f"\n  line {k} to {difference}{answer}{bytes_apart}, report {checksum_of(reports)}"


def held(data, numbers, reports, copy):
    """Whether sheet, index and report are a copy and those made of it. Of a copy that is refused none are made."""
    try:
        made = own(copy)
    except Refused:
        made = (None, None)
    return held_text(data == copy, numbers == made[0], reports == made[1])


def held_text(*is_same):
    return "; sheet {}, index {}, report {}".format(*("same" if same else "other" for same in is_same))


def lent_text(data, numbers, reports, changes):
    lent = "".join(f" {number}" for number in numbers)
    return f"{sheet_text(data)} + {sheet_text(reports)}; {len(numbers)}{lent}{''.join(f' {k} {d}' for k, d, *_ in changes)}"


def add(name, data, *changes, lent=None):
    """A case of a sheet and of changes, each a line and a difference and, where it is refused, the refusal; lent the sheet's own
    index and report, or others. Returns the report buffers after each of them, that before first."""
    numbers, reports = lent or own(data)
    assert len(numbers) <= ROOM, name
    text, now, seen = "", data, [reports]
    for k, difference, *refusal in changes:
        answer, after, then = call(now, numbers, seen[-1], k, difference)
        assert answer == (f" refused {refusal[0]}" if refusal else " changed"), (name, answer, refusal)
        text += call_text(k, difference, answer, now, after, then) + held(after, numbers, then, after)
        now = after
        seen.append(then)
    add_case(f"renewing {name}", lent_text(data, numbers, reports, changes), text)
    return seen


def add_refused(name, data, refusal, lent, changes):
    """Changes that are all refused so."""
    assert len(set(add(name, data, *[(k, difference, refusal) for k, difference in changes], lent=lent))) == 1


# Sheets

# Word 2, of line 0, is named by two lines, words 0, 1 and 3 by one, and words 4 and 5 by none. Line 2 uses no second operand.
SMALL = Sheet(8, [1, 2], [Line(2, difference=1), Line(5, first=2, second=1, difference=3),
                          Line(6, first=2, constant=5, difference=3), Line(3, 1, first=3, difference=6)]).pack()
INDEX = [1, 0, 1, 1, 2, 1, 2, 1, 3, 0, 0]


def of_kinds(first, second):
    """A line of each kind, on the same words."""
    return [Line(kind, int(kind in AMOUNT_KINDS), first, second if kind in TWO_WORD_KINDS else 0) for kind in KINDS]


def longest():
    """As many numbers as an index can have: every line names the word before its own, and word 0."""
    return Sheet(4, [0] * 8, [Line((1, 5, 9)[k % 3], first=7 + k) for k in range(MAX_LINES)]).pack()


# Indexes

def indexes():
    add_index("of document 01's example", Sheet(2, [1], [Line(6, constant=1, difference=3)]).pack(), [1, 0, 0])
    add_index("of words with no, one and two lines", SMALL, INDEX)
    add_index("of words with no, one and two lines, far too short", SMALL, INDEX, 0)
    every, two = list(range(9)), [0, 4, 8]
    add_index("of each kind, with the unused second operands", Sheet(8, [0] * 3, of_kinds(1, 2)).pack(),
              [0, 9] + every + [3] + two + [0] * 9)
    add_index("of each kind, with the second operand before the first", Sheet(8, [0] * 3, of_kinds(2, 1)).pack(),
              [0, 3] + two + [9] + every + [0] * 9)
    add_index("of each kind on word 0", Sheet(8, [0] * 2, of_kinds(0, 1)).pack(), [9] + every + [3] + two + [0] * 9)
    add_index("of inputs that no line names", chain(8, 3), [0] * 7 + [1, 0, 1, 1, 1, 2, 0])
    add_index("of 32 lines, each on the word before", chain(1, PER_BLOCK + 1))
    add_index("of 248 lines on one word", plain(2, 1, MAX_LINES), [MAX_LINES, *range(MAX_LINES)] + [0] * MAX_LINES)
    assert len(index(longest(), MOST_NUMBERS)) == MOST_NUMBERS
    add_index("of the most numbers", longest())


def named_twice():
    """A word that a line names twice has it once. Only the kind that XORs two words can, and sealing refuses it."""
    add_index("of a line that names its word twice", Sheet(8, [0], [Line(1)]).pack(), [1, 0, 0])
    lines = [Line(2), Line(1, first=1, second=1), Line(1, first=0, second=1), Line(1, first=1, second=1), Line(5, first=1)]
    data = Sheet(8, [0], lines).pack()
    assert outcome(data, True) == " refused 23 1"
    add_index("of lines that name a word twice, and of others between them", data, [3, 0, 2, 4, 4, 1, 2, 3, 4, 0, 0, 0, 0])


def random_indexes():
    random = Random(3)
    for i, count in enumerate((7, 12, PER_BLOCK + 2)):
        lines = some_sheet(4, random.randrange(2, 9), random.choices(KINDS, k=count), random)
        add_index(f"at random, {i}", Sheet(4, [0] * lines.m, [Line(line.kind, line.amount, line.first, line.second)
                                                               for line in lines.lines]).pack())


def no_indexes():
    """The reading's refusals, in buffers that are too short as well."""
    for name, data, refusal in (
            ("no bytes", b"", "1 0"),
            ("a wrong check", off(SMALL, 1, 1), "2 1"),
            ("a word that is not earlier", seal_bytes(put_field(SMALL, 2, "first operand", 4)), "10 2"),
            ("an unused operand that is not 0", seal_bytes(put_field(SMALL, 3, "second operand", 1)), "15 3"),
            ("a byte after the lines", seal_bytes(put(SMALL, record_at(4), 1)), "16 1")):
        add_no_index(f"of a sheet with {name}", data, refusal)


# Changes, lent what is the sheet's own

def users():
    """Words that no, one and two lines name, and that all others do; and back."""
    buffers = add("of lines whose words two, one and no lines name, and back", SMALL,
                  (0, 5), (1, 7), (2, 7), (3, 14), (3, 6), (2, 3), (1, 3), (0, 1))
    assert buffers[0] == buffers[8]
    for n, kind in ((16, 6), (5, 1)):
        sheet, one, two = telling(n, kind)
        buffers = add(f"of kind {kind} at width {n}, with its word named by every kind, and back", sheet.pack(),
                      (0, one), (0, two), (0, sheet.lines[0].difference))
        assert buffers[0] == buffers[3]
    lines = [Line(2) for _ in range(PER_BLOCK + 3)]
    for k in (5, 29, 30, 31, 33):
        lines[k].first = 4
    buffers = add("of a word that lines of two blocks name", Sheet(2, [0], lines).pack(), (3, 2), (33, 1), (3, 0), (33, 0))
    assert [sum(0 == b for b in buffer[::RECORD]) for buffer in buffers] == [0, 6, 6, 1, 0]


def self_xors():
    """The report of a line on one word twice hangs on its own difference alone."""
    sheet = Sheet(8, [2, 3], [Line(2, difference=2), Line(1, first=2, second=2), Line(1), Line(9, first=3, second=2, difference=2)])
    add("of words XOR themselves", sheet.pack(), (0, 7), (1, 1), (2, 255), (1, 0), (0, 2))


def places():
    """First and last lines, and lines at a block's border."""
    add("of the only line", plain(8, 1, 1), (0, 9), (0, 0))
    add("in a chain of 32 lines", chain(1, PER_BLOCK + 1), (0, 1), (30, 1), (31, 1), (29, 3), (30, 0), (31, 0))
    add("with the most numbers", longest(), (0, 1), (122, 3), (246, 8), (MAX_LINES - 1, 4), (MAX_LINES, 4, "17 0"), (246, 0))


def again():
    """The difference that is there already."""
    assert len(set(add("to the differences that are there", SMALL, (0, 1), (1, 3), (2, 3), (3, 6)))) == 1


def limits():
    """Differences at the width's end, and past it with low bits that would pass."""
    for n in (2, 8, 32):
        ends = [2**n - 1, 2**n, 2**n - 2, 2**32, 2**32 + 1, 2**63, MOST]
        add(f"to differences at the end of width {n}", plain(n, 2, 3),
            *[(i % 3, end) + ((f"14 {i % 3}",) if 2**n <= end else ()) for i, end in enumerate(ends)])


def line_numbers():
    """Lines past the last, of numbers that a smaller type or a product with a record's size would bring back to a line; and 17
    before 14."""
    past = [4, 2 * PER_BLOCK, 2**8, 2**16, 2**32, 2**60, 2**63, MOST]
    add("of lines past the last", SMALL, *[(k, 5, "17 0") for k in past], (4, 2**8, "17 0"), (MOST, MOST, "17 0"),
        (3, 2**8, "14 3"), (3, 7))


# Lent what is not the sheet's own

# Asked of what is lent: of a line that the sheet has and of others, to differences that it could have and to others.
ASKED = [(0, 5), (4, 7), (1, 2**8), (MOST, MOST)]
# Another line on a word of the same difference.
OTHER = seal_bytes(put_field(SMALL, 2, "first operand", 0))


def with_number(at, number):
    return INDEX[:at] + [number] + INDEX[at + 1:]


INDEXES = {
    "one number short": INDEX[:-1],
    "one number long": INDEX + [0],
    "four numbers long": INDEX + INDEX[:4],
    "none": [],
    "another first number": with_number(0, 2),
    "another last number": with_number(10, 1),
    "a count one less": with_number(4, 1),
    "another line": with_number(6, 3),
    "a line's number 256 higher": with_number(6, 258),
    "the lines descending": INDEX[:5] + [2, 1] + INDEX[7:],
    "a line twice": INDEX[:5] + [1, 1] + INDEX[7:],
    "an unused operand counted": [2, 0, 2] + INDEX[2:],
    "a line's two words exchanged": [1, 1, 1, 0] + INDEX[4:],
    "the inputs left out": INDEX[4:],
    "another sheet's, with the same report": own(OTHER)[0],
}


def not_its_index():
    assert own(SMALL)[0] == INDEX and len(own(OTHER)[0]) == len(INDEX) and own(OTHER)[1] == own(SMALL)[1]
    for name, numbers in INDEXES.items():
        assert numbers != INDEX
        add_refused(f"with an index that is not the sheet's, {name}", SMALL, "26 0", (numbers, own(SMALL)[1]), ASKED)


def not_its_report():
    """A byte in line 0 or 1, whose reports the first change asked for would renew anyway, and others."""
    reports = own(SMALL)[1]
    after = own(change(SMALL, *ASKED[0]))[1]
    assert [k for k in range(4) if after[RECORD * k:RECORD * (k + 1)] != reports[RECORD * k:RECORD * (k + 1)]] == [0, 1, 2]
    for name, lent in (
            ("one byte short", reports[:-1]),
            ("one byte long", reports + b"\0"),
            ("one line short", reports[:-RECORD]),
            ("none", b""),
            ("another byte in the line itself", put(reports, 0, 0)),
            ("another byte in a line that names its word", put(reports, RECORD + 4, 17)),
            ("another byte in a line that does not", put(reports, 3 * RECORD, 0)),
            ("1 in a byte that is always 0", put(reports, RECORD + 1, 1)),
            ("another last byte", put(reports, len(reports) - 1, 128)),
            ("that of the changed sheet", after)):
        add_refused(f"with a report that is not the sheet's, {name}", SMALL, "26 0", (INDEX, lent), ASKED)
    add_refused("with an index and a report that are not the sheet's", SMALL, "26 0", (INDEX[:-1], reports[:-1]), ASKED)


def refused_sheets():
    """By the reading, before anything is asked of what is lent, also where the change would mend what is wrong."""
    lent, asked = own(SMALL), [(1, 3)] + ASKED[1:]
    wrong = seal_bytes(put_field(SMALL, 1, "difference", 2**8))
    assert seal_bytes(put_field(wrong, 1, "difference", 3)) == SMALL
    for name, data, refusal in (
            ("no bytes", b"", "1 0"),
            ("a block more than any sheet", resized(SMALL, 10 * BLOCK), "1 0"),
            ("a wrong check in block 0", off(SMALL, 0, 1), "2 0"),
            ("a wrong check in the line's block", off(SMALL, 1, 1), "2 1"),
            ("width 33", seal_bytes(put(SMALL, 4, 33)), "4 0"),
            ("kind 10 in line 1", seal_bytes(put_field(SMALL, 1, "kind", 10)), "9 1"),
            ("difference 2^8 in line 1", wrong, "14 1"),
            ("a byte after the lines", seal_bytes(put(SMALL, record_at(4), 1)), "16 1")):
        add_refused(f"of a sheet with {name}", data, refusal, lent, asked)
    add_refused("of a sheet with a wrong check, lent nothing", off(SMALL, 1, 1), "2 1", ([], b""), asked)
    add_refused("of a sheet with difference 2^8 in line 1, lent nothing", wrong, "14 1", ([], b""), asked)


# Changes at random

def some_change(sheet, random):
    """Mostly of a line that the sheet has, to the difference that it had at first or to one that is another in few bits."""
    k, width = random.randrange(len(sheet.lines)), 2**sheet.n
    one = sheet.lines[k].difference ^ random.choice((0, 0, 1, 3)) << random.randrange(sheet.n - 1)
    return random.choice([(k, one)] * 7 + [(k, random.randrange(width)), (k, width + one, f"14 {k}"),
                                           (len(sheet.lines) + random.randrange(2), one, "17 0")])


def random_changes():
    """A hundred changes, lent the same index and report all the time."""
    random = Random(2)
    for n, m, count in ((4, 2, 8), (8, 3, PER_BLOCK + 1), (32, 5, 9)):
        sheet = some_sheet(n, m, random.choices([*KINDS, *CARRY_KINDS, *CARRY_KINDS], k=count), random)
        changes = [some_change(sheet, random) for _ in range(100)]
        buffers = add(f"a hundred times at random, {count} lines at width {n}", sheet.pack(), *changes)
        # The reports of most lines have changed, to several possible ones as well.
        entries = [{buffer[at:at + RECORD] for buffer in buffers} for at in range(0, len(buffers[0]), RECORD)]
        assert len(set(buffers)) > 25 and sum(len(entry) > 1 for entry in entries) > count // 2
        assert sum(len(entry) > 2 for entry in entries) > 1 and {len(one) for one in changes} == {2, 3}, entries


# The comparison itself. All reports above are renewed as they should be, so a comparison that says so of every one would not show
# in them.

# The last line names the first one's word.
CLAIMED = Sheet(4, [1, 0], [Line(2, difference=1), Line(5, second=1, difference=1),
                            Line(6, first=2, constant=1, difference=1)]).pack()
# A change that is made by the call, one that the copy has, and whether the sheets are the same, and the reports.
CLAIMS = {
    "the same change": ((0, 3), (0, 3), True, True),
    "a change to another report of the line": ((1, 1), (1, 3), False, False),
    "a change to another report of a line that names its word": ((0, 2), (0, 3), False, False),
    "a change of another line": ((1, 2), (2, 3), False, False),
    "a change to the same reports": ((1, 4), (1, 8), False, True),
    "a plain change after one that changes nothing": ((1, 1), (0, 3), False, False),
    "a change, and a refusal": ((0, 2), (0, 16), False, False),
    "a refusal, and a change": ((0, 16), (0, 2), False, False),
    "refusals of two numbers": ((3, 1), (0, 16), True, True),
}


def plainly(data, k, difference):
    try:
        return change(data, k, difference)
    except Refused:
        return data


def claims():
    numbers, reports = own(CLAIMED)
    for name, (one, other, sheets, buffers) in CLAIMS.items():
        copy = plainly(CLAIMED, *other)
        answer, after, then = call(CLAIMED, numbers, reports, *one)
        text = call_text(*one, answer, copy, after, then) + held(after, numbers, then, copy)
        assert text.endswith(held_text(sheets, True, buffers)), name
        answer, last, left = call(copy, numbers, then, *one)
        assert (answer == " refused 26 0") == (not buffers), name
        add_case(f"claim of {name}", lent_text(CLAIMED, numbers, reports, (one, other)),
                 text + call_text(*one, answer, after, last, left))


def texts():
    """The lines of all cases, and of their answers."""
    for group in (indexes, named_twice, random_indexes, no_indexes, users, self_xors, places, again, limits, line_numbers,
                  not_its_index, not_its_report, refused_sheets, random_changes, claims):
        group()
    return cases, answers
