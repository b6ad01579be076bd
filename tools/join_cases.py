"""The cases of joining that crates/join_cases runs, and the answers that it has to give. Both come from this file, the
sheets of examples/ and oracle/trail.py, an independent reading of documents 01 and 02. What follows a joined trail, and the reports of its lines,
are worked out from the two sheets that are joined or from a sheet of the whole, never from the joined one.

A case is a line `NAME: SHEET + SHEET; COUNT WORD WORD .. LENGTH`: two sheets, each given sealed as `LENGTH OFFSET=VALUE ..`,
the COUNT words that the list names, and the length of a buffer, most often one byte short of the need. It is answered by what
joining answers for a buffer of this length, one that is a byte longer, and one that is six bytes longer: the answer, the bytes
after the joined sheet, and a checksum of what has changed in the buffer, 0 where nothing has. The buffer's bytes are A5 before. By
the name's first word, more is told of the joined sheet:
- `bytes`: its bytes that are not 0;
- `following`: of a small one, how many starting values follow, and a checksum of what two runs answer from each of them, in the
  order of the number that the words spell, word 0 lowest;
- `reports`: the reports of its lines, and of the line number after the last;
- `sealing`: what sealing it afresh answers, and the bytes that this changes.
"""
from pathlib import Path
from random import Random

from clause_cases import altered, some_line, some_words, starts_of, with_run
from oracle.trail import (AMOUNT_KINDS, BLOCK, CARRY_KINDS, CONSTANT_KINDS, KINDS, MAX_LINES, PER_BLOCK, TWO_WORD_KINDS, Line,
                          Refused, Sheet, join, line_report, read, report, run, seal_bytes, two_runs)
from report_cases import shown, with_number
from sheet_cases import listed, outcome, plain, put, put_field

EXAMPLES = Path(__file__).resolve().parent.parent / "examples"
# What stands in a buffer before, and the program's room for the longest.
BEFORE, MOST_BYTES = 0xA5, 11 * BLOCK
# The program's room for names, and the most bits of a starting value where all are tried.
MOST_NAMES, MOST_START_BITS = 16, 9

# The program's two texts, line by line.
cases, answers = [], []


# A case and its answer

def sheet_text(data):
    return f"{len(data)}{listed((i, b) for i, b in enumerate(data) if b)}"


def checksum_of(numbers):
    checksum = 0
    for number in numbers:
        checksum = with_number(checksum, number)
    return checksum


def buffer_answer(first, second, names, length):
    before = after = bytes([BEFORE] * length)
    try:
        joined = join(first, second, names, length)
        after = joined + before[len(joined):]
        answer = f"written {len(joined)}, rest [{after[len(joined):].hex()}]"
    except Refused as refused:
        answer = str(refused)
    return f"\n  buffer of {length} {answer}, checksum {checksum_of(x ^ y for x, y in zip(before, after))}"


def need(first, second):
    """How long the joined sheet is, or would be, by the line counts of both."""
    count = sum(int.from_bytes(data[6:8], "little") for data in (first, second))
    return BLOCK * (1 + -(-count // PER_BLOCK))


def add(name, first, second, names, answer, length, more=""):
    """A case on buffers of a length and a little more. The answer for the longest of them is stated, so that the case is what its
    name says."""
    assert ":" not in name and f"{name}:" not in (line[:len(name) + 1] for line in cases), name
    assert length + 6 <= MOST_BYTES and len(names) <= MOST_NAMES, name
    buffers = [buffer_answer(first, second, names, length + longer) for longer in (0, 1, 6)]
    assert buffers[2].startswith(f"\n  buffer of {length + 6} {answer},"), (name, buffers[2])
    words = "".join(f" {word}" for word in names)
    cases.append(f"{name}: {sheet_text(first)} + {sheet_text(second)}; {len(names)}{words} {length}\n")
    answers.append(f"{name}:{''.join(buffers)}{more}\n")


def add_joined(name, first, second, names, more=""):
    add(name, first, second, names, f"written {need(first, second)}", need(first, second) - 1, more)


def add_bytes(name, first, second, names):
    joined = join(first, second, names, MOST_BYTES)
    add_joined(f"bytes {name}", first, second, names, f"\n  bytes{listed((i, b) for i, b in enumerate(joined) if b)}")


def add_refused(name, first, second, names, refusal):
    """Refused so for a buffer that is too short, too, though that is asked last."""
    add(f"join {name}", first, second, names, f"refused {refusal}", need(first, second) - 1)
    assert answers[-1].count(f" refused {refusal},") == 3, name


# Sheets

def to_join(first, names, lines):
    """A second sheet whose inputs have the differences of the named words."""
    known = first.differences()
    return Sheet(first.n, [known[word] for word in names], lines)


def chain(m, count):
    """A good sheet of few non-zero bytes: every line is the XOR of the word before its own with 0."""
    return Sheet(2, [0] * m, [Line(2, first=m + k - 1) for k in range(count)]).pack()


# Five words, the last two made by lines. Words 1 and 3 have the same difference.
FIRST = Sheet(8, [1, 2, 128], [Line(2, first=1, difference=2), Line(2, difference=5)])
NAMES = [4, 1]
SECOND = to_join(FIRST, NAMES, [Line(5, second=1, difference=7), Line(2, first=2, difference=7), Line(2, first=1)])


# Joined sheets, byte by byte

def of_each_kind(operands):
    """A line of each kind for each pair of operands, with no difference yet. Amounts and constants that are used are not 0."""
    lines = []
    for first, second in operands:
        for kind in KINDS:
            line = Line(kind, first=first)
            line.amount = 1 + len(lines) % 7 if kind in AMOUNT_KINDS else 0
            line.second = second if kind in TWO_WORD_KINDS else 0
            line.constant = 5 * len(lines) + 2 if kind in CONSTANT_KINDS else 0
            lines.append(line)
    return lines


# All words of the second have another number in the joined sheet, and none has 0 there, as an unused operand has.
KINDS_FIRST = Sheet(8, [1, 2, 4], [Line(5, second=1, difference=3), Line(9, first=2, second=3, difference=7),
                                   Line(7, 3, first=4, difference=56)])
KINDS_NAMES = [5, 3, 1]
KINDS_SECOND = with_run(8, [56, 3, 2], of_each_kind(((0, 2), (3, 5), (12, 0), (1, 20))), [0x3A, 0xC5, 0x6E])


def operands():
    """Inputs and lines' words, as first and as second operand, in every kind."""
    first = KINDS_FIRST.pack()
    add_bytes("of every kind on inputs and on lines' words", first, KINDS_SECOND.pack(), KINDS_NAMES)
    alike = to_join(KINDS_FIRST, KINDS_NAMES, [Line(1, first=2, second=2), Line(1, first=3, second=3)])
    add_bytes("of an input and a line's word, each XOR itself", first, alike.pack(), KINDS_NAMES)


def add_sealing(name, first, second, names, answer):
    """A case whose joined sheet is sealed afresh."""
    joined = join(first, second, names, MOST_BYTES)
    assert outcome(joined, False).startswith(" accepted ") and outcome(joined, True).startswith(f" {answer}"), name
    # Joining has written the checks.
    assert seal_bytes(joined) == joined, name
    add_joined(f"sealing {name}", first, second, names, f"\n  seal{outcome(joined, True)}")


def self_xors():
    """A word XORed with itself, which joining keeps and sealing refuses."""
    first, second = FIRST.pack(), SECOND.pack()
    odd_first = Sheet(8, FIRST.inputs, FIRST.lines + [Line(1, first=1, second=1)]).pack()
    odd_input, odd_line = (to_join(FIRST, NAMES, SECOND.lines + [Line(1, first=word, second=word, difference=3)]).pack()
                           for word in (1, 4))
    both_inputs = to_join(FIRST, NAMES, [Line(1, second=1, difference=7)]).pack()
    for name, one, two, answer in (
            ("with no word XOR itself", first, second, "accepted"),
            ("with the XOR of both inputs of the second sheet", first, both_inputs, "accepted"),
            ("with a word XOR itself in the first sheet", odd_first, second, "refused 23 2"),
            ("with an input XOR itself in the second sheet", first, odd_input, "refused 23 5"),
            ("with a line's word XOR itself in the second sheet", first, odd_line, "refused 23 5"),
            ("with a word XOR itself in both sheets", odd_first, odd_line, "refused 23 2")):
        add_sealing(name, one, two, NAMES, answer)
    last = Sheet(2, [0], [Line(2)] * (MAX_LINES // 2 - 1) + [Line(1, first=5, second=5)]).pack()
    add_sealing("with a word XOR itself in line 247", chain(1, MAX_LINES // 2), last, [1], "refused 23 247")


def named_words():
    first = FIRST.pack()
    add_bytes("of a list of two words", first, SECOND.pack(), NAMES)
    add_bytes("of a list with another word of the same difference", first, SECOND.pack(), [4, 3])
    for word, name in ((4, "the last word"), (3, "line 0's word"), (2, "the last input"), (0, "word 0")):
        second = to_join(FIRST, [word], [Line(6, constant=1, difference=1), Line(2, first=1)])
        add_bytes(f"of a second sheet whose input is {name}", first, second.pack(), [word])
    for names in ([0, 1, 2], [4, 3, 2, 1, 0]):
        second = to_join(FIRST, names, [Line(1, second=k, difference=k) for k in range(len(names))])
        add_bytes(f"of the words {' '.join(map(str, names))}", first, second.pack(), names)


def same_bytes():
    """A round after the same round, and both on the same inputs."""
    sheet = Sheet(8, [1, 2], [Line(3, 1, difference=2), Line(1, first=1, second=2), Line(8, 1, first=1, difference=1),
                              Line(2, first=1, constant=85, difference=2)])
    assert [number for number, *_ in report(sheet)] == [1] * 4
    for names in ([4, 5], [0, 1]):
        add_bytes(f"of a sheet and the same sheet, on words {names[0]} and {names[1]}", sheet.pack(), sheet.pack(), names)


def input_counts():
    """The fewest and the most inputs of either sheet."""
    for m in (1, 8):
        first = Sheet(8, [j + 1 for j in range(m)], [Line(2, first=m - 1, difference=k) for k in range(8)])
        for inputs in (1, 8):
            names = [m + 7 - j for j in range(inputs)]
            second = to_join(first, names, [Line(2, first=inputs - 1, difference=8), Line(2, first=inputs, difference=9)])
            add_bytes(f"of a sheet with {m} inputs and one with {inputs}", first.pack(), second.pack(), names)


def full_words():
    """Sums that pass 2^32 in every check."""
    most = 2**32 - 1
    first = Sheet(32, [most] * 8, [Line(6, first=7, constant=most, difference=most), Line(4, 31, first=8, difference=most)])
    names = [9, 7, 8]
    second = to_join(first, names, [Line(2, first=2, constant=most, difference=most),
                                    Line(9, first=3, second=2, difference=most)])
    add_bytes("of words with all bits at width 32", first.pack(), second.pack(), names)


# Many lines, and buffers

def line_counts():
    """Block borders within a sheet and where the two meet, and the most lines."""
    for one, two in ((30, 1), (31, 1), (1, 31), (31, 31), (61, 1), (32, 31), (1, 62), (124, 124)):
        add_joined(f"join of {one} and {two} lines", chain(1, one), chain(1, two), [one])
    # The largest operand that a sheet can have is 254.
    add_joined("join of 247 and 1 lines after 8 inputs", plain(2, 8, 247), plain(2, 1, 1), [254])
    add_joined("join of 1 and 247 lines after 8 inputs", plain(2, 8, 1), chain(1, 247), [8])


def buffers():
    """Of lengths that are far from the need, 1,536 bytes."""
    first, second = plain(2, 1, 16), plain(2, 1, 16)
    for length, answer in ((0, "refused 18 0"), (511, "refused 18 0"), (1023, "refused 18 0"),
                           (2047, f"written 1536, rest [{'a5' * 517}]")):
        add(f"join in buffers of {length} bytes and a little more", first, second, [16], answer, length)


# Refusals

def refused_sheets():
    """By the reading: the first sheet's refusal comes before the second's, whichever question is the earlier one."""
    first, second = FIRST.pack(), SECOND.pack()

    def off(data):
        return put(data, BLOCK + 508, data[BLOCK + 508] ^ 1)

    def unknown_kind(data, line):
        return seal_bytes(put_field(data, line, "kind", 10))

    def not_zero(data):
        return seal_bytes(put(data, BLOCK + 500, 1))

    for name, one, two, refusal in (
            ("a wrong check in the first sheet", off(first), second, "2 1"),
            ("a wrong check in the second sheet", first, off(second), "2 1"),
            ("kind 10 in line 1 of the first sheet", unknown_kind(first, 1), second, "9 1"),
            ("kind 10 in line 2 of the second sheet", first, unknown_kind(second, 2), "9 2"),
            ("a byte after the lines in the first sheet", not_zero(first), second, "16 1"),
            ("a byte after the lines in the second sheet", first, not_zero(second), "16 1"),
            ("kind 10 in line 1 of the first sheet and line 2 of the second", unknown_kind(first, 1), unknown_kind(second, 2),
             "9 1"),
            ("kind 10 in line 1 of the first sheet, a wrong check in the second", unknown_kind(first, 1), off(second), "9 1"),
            ("a wrong check in the first sheet, kind 10 in line 2 of the second", off(first), unknown_kind(second, 2), "2 1"),
            ("a byte after the lines in the first sheet, no bytes in the second", not_zero(first), b"", "16 1"),
            ("no bytes in the first sheet, kind 10 in line 2 of the second", b"", unknown_kind(second, 2), "1 0"),
            ("no bytes in the second sheet", first, b"", "1 0")):
        add_refused(f"with {name}", one, two, NAMES, refusal)


def wide(sheet, n):
    return Sheet(n, sheet.inputs, sheet.lines).pack()


def widths():
    first, second = FIRST.pack(), SECOND.pack()
    add_refused("of widths 8 and 9", first, wide(SECOND, 9), NAMES, "20 0")
    add_refused("of widths 9 and 8", wide(FIRST, 9), second, NAMES, "20 0")
    add_refused("of widths 2 and 32", plain(2, 1, 1), plain(32, 1, 1), [0], "20 0")
    add_joined("join of widths 9 and 9", wide(FIRST, 9), wide(SECOND, 9), NAMES)


def lists():
    """Faults of the list, each alone."""
    first, second = FIRST.pack(), SECOND.pack()
    for name, names in (("no name", []), ("a name too few", [4]), ("a name too many", [4, 1, 3]),
                        ("names in another order", [1, 4]),
                        ("the first unknown word as its first name", [5, 1]), ("the first unknown word as its last", [4, 5]),
                        ("a name past 2^8", [4 + 2**8, 1]), ("a name past 2^16", [4, 1 + 2**16]),
                        ("a name past 2^32", [4 + 2**32, 1]), ("a last name past 2^32", [4, 1 + 2**32])):
        add_refused(f"with {name}", first, second, names, "21 0")
    # All differences are 0.
    zeros, eight = chain(8, 2), chain(8, 1)
    right = list(range(8))
    add_joined("join with eight names", zeros, eight, right)
    for name, names in (("eight names, one of them twice in a row", [0, 1, 2, 3, 3, 5, 6, 7]),
                        ("eight names, the first also the last", [0, 1, 2, 3, 4, 5, 6, 0]),
                        ("eight names, one of them an unknown word", [0, 1, 2, 10, 4, 5, 6, 7]),
                        ("seven names for eight inputs", right[:7]), ("nine names for eight inputs", right + [8])):
        add_refused(f"with {name}", zeros, eight, names, "21 0")


def differences():
    """One bit of one input's difference is not the named word's."""
    for n in (8, 32):
        first = Sheet(n, [2**n - 1, 0], [Line(2, difference=1)])
        for j in (0, 2):
            for bit in (0, n - 1):
                second = to_join(first, [2, 0, 1], [Line(2)])
                second.inputs[j] ^= 2**bit
                add_refused(f"with bit {bit} of input {j} wrong at width {n}", first.pack(), second.pack(), [2, 0, 1], "21 0")


def too_many_lines():
    one, most = plain(2, 1, 1), plain(2, 1, MAX_LINES)
    add_refused("of 248 and 1 lines", most, one, [0], "22 0")
    add_refused("of 1 and 248 lines", one, most, [1], "22 0")


def two_faults():
    """20 before 21 before 22, and all of them after the reading of both sheets."""
    first, second = FIRST.pack(), SECOND.pack()
    unknown = seal_bytes(put_field(second, 2, "kind", 10))
    most = plain(2, 1, MAX_LINES)
    for name, one, two, names, refusal in (
            ("no name, and widths 9 and 8", wide(FIRST, 9), second, [], "20 0"),
            ("248 and 1 lines, and widths 2 and 3", most, plain(3, 1, 1), [0], "20 0"),
            ("248 and 1 lines, and no name", most, plain(2, 1, 1), [], "21 0"),
            ("kind 10 in line 2 of the second sheet, and widths 9 and 8", wide(FIRST, 9), unknown, NAMES, "9 2"),
            ("kind 10 in line 2 of the second sheet, and no name", first, unknown, [], "9 2")):
        add_refused(f"with {name}", one, two, names, refusal)


# What follows

def outcomes(first, second, names):
    """What two runs of the joined sheet answer from each starting value of the first: where they follow the first, what the second
    answers from the named words, its lines after the first's."""
    found = []
    for start in starts_of(first):
        outcome = two_runs(first, start)
        if outcome is None:
            words = run(first, start)
            outcome = two_runs(second, [words[word] for word in names])
            outcome = outcome and (len(first.lines) + outcome[0], outcome[1])
        found.append(outcome)
    return found


def joined_sheet(first, second, names):
    """The oracle's joined sheet, which has to bear out what is worked out without it."""
    return read(join(first.pack(), second.pack(), names, MOST_BYTES))


def add_following(name, first, second, names):
    """A case of two small sheets; tells how many starting values follow the joined trail."""
    assert first.n * first.m <= MOST_START_BITS, name
    found = outcomes(first, second, names)
    assert found == [two_runs(joined_sheet(first, second, names), start) for start in starts_of(first)], name
    following = found.count(None)
    checksum = checksum_of(0 if outcome is None else 1 + 64 * outcome[0] + outcome[1] for outcome in found)
    add_joined(f"following {name}", first.pack(), second.pack(), names,
               f"\n  two runs, following {following}, checksum {checksum}")
    return following


def some_kinds(kinds, most, random):
    """These kinds and up to so many others, in any order."""
    some = [*kinds, *random.choices(KINDS, k=random.randrange(most + 1))]
    return random.sample(some, len(some))


def some_trail(n, inputs, kinds, start, random):
    """A sheet with lines of these kinds, that this starting value follows."""
    return with_run(n, inputs, [some_line(n, kind, len(inputs) + k, random) for k, kind in enumerate(kinds)], start)


def some_pair(n, kind, random):
    """Two sheets and a list of names, with a starting value that follows the joined trail. A line of the second has this kind."""
    while True:
        m, inputs = random.randrange(1, MOST_START_BITS // n + 1), random.randrange(1, 5)
        kinds = some_kinds([random.choice(CARRY_KINDS)], 2, random)
        later = some_kinds([random.choice(CARRY_KINDS), kind], 1, random)
        if inputs <= m + len(kinds) and (1 < m or kinds[0] not in TWO_WORD_KINDS) and (
                1 < inputs or later[0] not in TWO_WORD_KINDS):
            break
    start = some_words(n, m, random)
    first = some_trail(n, some_words(n, m, random), kinds, start, random)
    names = random.sample(range(m + len(kinds)), inputs)
    words, known = run(first, start), first.differences()
    return first, some_trail(n, [known[word] for word in names], later, [words[word] for word in names], random), names


def tells(first, second, names):
    """Whether some starting values follow the joined trail, some leave it in the first sheet's lines, and some in the second's."""
    found = outcomes(first, second, names)
    return {outcome and outcome[0] < len(first.lines) for outcome in found} == {None, True, False}


def random_pairs():
    """Every kind at both widths. In every fifth pair a line of the second has another difference, so that few starting values
    follow, or none."""
    random, counts = Random(7), []
    for i in range(2 * len(KINDS)):
        n, kind = 2 + i % 2, KINDS[i % len(KINDS)]
        first, second, names = some_pair(n, kind, random)
        while not tells(first, second, names):
            first, second, names = some_pair(n, kind, random)
        if i % 5 == 4:
            second = altered(second, random.randrange(len(second.lines)), random.randrange(1, 2**n))
        counts.append(add_following(f"pair {i} at width {n}, with kind {kind}", first, second, names))
    assert 0 in counts


def none_together():
    """Each trail is followed by some starting value, and no starting value follows both."""
    first = Sheet(3, [1], [Line(6, constant=1, difference=3)])
    same_sum = Sheet(3, [1], [Line(6, constant=1, difference=7)])
    later_sum = Sheet(3, [3], [Line(6, constant=1, difference=5)])
    for name, second, names in (("a sum of the same word to another difference", same_sum, [0]),
                                ("a sum of the first's sum", later_sum, [1])):
        assert all(None in [two_runs(sheet, start) for start in starts_of(sheet)] for sheet in (first, second)), name
        assert add_following(f"a sum, and {name}", first, second, names) == 0


# Reports

def add_reports(name, first, second, names, reports):
    """A case of two sheets; the joined sheet's lines have these reports."""
    assert reports == report(joined_sheet(first, second, names)), name
    lines = "".join(f"\n  line {k}{shown(its_report)}" for k, its_report in enumerate(reports))
    add_joined(f"reports {name}", first.pack(), second.pack(), names, f"{lines}\n  line {len(reports)} refused 17 0")


# Starting values that follow the two sheets of XTEA's rounds 0 to 5: plaintext and master key, plaintext and round keys.
KEYS_START = [0xD5F4B3B2, 0x7204E52D, 0xF1FD42A2, 0xE6C3F339, 0x07D4BEDC, 0x8A9A021E]
ROUNDS_START = [0x3BAB6C39, 0x05805975, 0xA46D6753, 0x08D6AF57, 0x01EA0639, 0x924925D4, 0x27CF91FB, 0xD3765E6D]


def xtea():
    """The reports of the trail of all 27 rounds. A round has seven lines there, and its round key is line 4 of them."""
    whole, keys, rounds = (read((EXAMPLES / f"{name}.sheet").read_bytes()) for name in ("xtea27", "xtea6_keys", "xtea6_rounds"))
    assert (len(keys.lines), len(rounds.lines)) == (6, 36)
    assert two_runs(keys, KEYS_START) is None and two_runs(rounds, ROUNDS_START) is None
    places = [7 * i + 4 for i in range(6)] + [7 * i + line for i in range(6) for line in (0, 1, 2, 3, 5, 6)]
    names = [0, 1] + [keys.m + i for i in range(6)]
    add_reports("of XTEA's first six rounds", keys, rounds, names, [line_report(whole, k) for k in places])


def both_reports():
    """The reports of the lines of the two sheets. One line is made impossible."""
    second = altered(KINDS_SECOND, 20, 4)
    reports = report(KINDS_FIRST) + report(second)
    assert {number for number, *_ in reports} == {0, 1, 2, 3}
    add_reports("of every kind", KINDS_FIRST, second, KINDS_NAMES, reports)


def texts():
    """The lines of all cases, and of their answers."""
    for group in (operands, self_xors, named_words, same_bytes, input_counts, full_words, line_counts, buffers, refused_sheets,
                  widths, lists, differences, too_many_lines, two_faults, random_pairs, none_together, xtea, both_reports):
        group()
    return cases, answers
