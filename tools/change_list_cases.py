"""The cases of a list of changes in one call (document 02, W-207) that crates/change_list_cases runs, and the answers that it has to
give. Both come from this file and from oracle/trail.py, an independent reading of documents 01 and 02, alone.

A case is a line `NAME: SHEET; ROOM COUNT NUMBER NUMBER ..`: a sheet, given sealed as `LENGTH OFFSET=VALUE ..`, the length of a
reply buffer, most often one byte short of the need, and a list of COUNT numbers, line, difference, line, difference and so on; the
numbers that the line does not have are 0. It is answered by what the call answers for a buffer of this length, one that is a byte
longer, and one that is six bytes longer, each time on the sheet as it is given: the answer with the replies; a checksum of what has
changed in the buffer and behind it, 0 where nothing has; and the bytes that have changed in the sheet, or for more than eight pairs a
checksum of the whole sheet. The buffer's bytes are A5 before, and those behind it. Where there are replies, two things follow: what
reading says of the sheet, and whether sheet and buffer are those of a copy that is changed once for each pair.

A case `claim` has a second list after the first, and the copy has the changes of that one. Most of these are not the same, so that a
comparison that calls all of them the same is found out.
"""
from random import Random

from clause_cases import some_sheet
from join_cases import BEFORE, checksum_of, sheet_text
from oracle.trail import (BLOCK, KINDS, MAX_LINES, PER_BLOCK, Line, Refused, Sheet, change, change_all, read, record_at, seal_bytes)
from report_cases import spread
from sheet_cases import listed, off, outcome, plain, put, put_field, resized

# The largest number that a call can be given, and the most pairs.
MOST, MOST_PAIRS = 2**64 - 1, 64
# The most pairs of which all changed bytes are told, and the program's room for numbers and for replies.
FEW_PAIRS, MOST_NUMBERS, ROOM = 8, 640, 512

# The program's two texts, line by line.
cases, answers = [], []


# A case and its answer

def pairs_of(numbers):
    return list(zip(numbers[0::2], numbers[1::2]))


def numbers_of(pairs):
    return [number for pair in pairs for number in pair]


def with_room(replies):
    return bytes(replies) + bytes([BEFORE]) * (ROOM - len(replies))


def one_by_one(data, numbers):
    """The sheet after a change for each pair, and the program's room for replies with one for each."""
    replies = []
    for k, difference in pairs_of(numbers):
        try:
            data = change(data, k, difference)
            replies.append(0)
        except Refused as refused:
            replies.append(refused.number)
    return data, with_room(replies)


def packed_anew(data, numbers):
    """The sheet's trail with the last difference of each line that is one of its width, packed again."""
    sheet = read(data)
    last = {k: difference for k, difference in pairs_of(numbers) if difference < 2**sheet.n}
    for k, line in enumerate(sheet.lines):
        line.difference = last.get(k, line.difference)
    return sheet.pack()


def apart(data, after, numbers):
    if len(pairs_of(numbers)) <= FEW_PAIRS:
        return f", bytes{listed((i, b) for i, b in enumerate(after) if b != data[i])}"
    return f", sheet {checksum_of(after)}"


def buffer_answer(data, numbers, length, others):
    """What the program has to print of a list for a reply buffer of a length, held against a copy with another list's changes."""
    try:
        after, replies = change_all(data, numbers, length)
        assert after == packed_anew(data, numbers)
        is_same = (after, with_room(replies)) == one_by_one(data, others)
        answer = f"replied {len(replies)} [{replies.hex()}]"
        held = f", read{outcome(after, False)}, {'' if is_same else 'not '}as one by one"
    except Refused as refused:
        after, replies, answer, held = data, b"", str(refused), ""
    checksum = checksum_of(b ^ BEFORE for b in with_room(replies))
    return f"\n  buffer of {length} {answer}, checksum {checksum}{apart(data, after, numbers)}{held}"


def list_text(numbers, is_last=True):
    """How many numbers there are, and the numbers, without the zeros at the end of a line."""
    shown = list(numbers)
    while is_last and shown and shown[-1] == 0:
        shown.pop()
    return f" {len(numbers)}{''.join(f' {number}' for number in shown)}"


def add_case(name, data, numbers, length, others=None):
    """A case of a list, or of two; tells what is answered for each buffer."""
    assert ":" not in name and f"{name}:" not in (line[:len(name) + 1] for line in cases), name
    assert len(numbers) <= MOST_NUMBERS and length + 6 <= ROOM, name
    held = numbers if others is None else others
    lists = list_text(numbers) if others is None else list_text(numbers, False) + list_text(others)
    buffers = [buffer_answer(data, numbers, length + longer, held) for longer in (0, 1, 6)]
    cases.append(f"{name}: {sheet_text(data)}; {length}{lists}\n")
    answers.append(f"{name}:{''.join(buffers)}\n")
    return buffers


def add(name, data, pairs, replies=None, more=(), length=None):
    """A case of a list that is answered so, by zeros if nothing is said, and of the numbers after its pairs. The buffer is one byte
    short of the need if there is no other length."""
    wanted = bytes(replies or [0] * len(pairs))
    length = max(0, len(pairs) - 1) if length is None else length
    buffers = add_case(f"changes {name}", data, numbers_of(pairs) + list(more), length)
    for text, longer in zip(buffers, (0, 1, 6)):
        answer = f"replied {len(wanted)} [{wanted.hex()}]" if len(wanted) <= length + longer else "refused 25 0"
        assert text.startswith(f"\n  buffer of {length + longer} {answer}"), (name, text, answer)


def add_refused(name, data, numbers, refusal, length):
    """A list that is refused so in each of the buffers."""
    for text in add_case(f"changes {name}", data, numbers, length):
        assert f" refused {refusal}, checksum 0, " in text, (name, text)


# Counts, and buffers

SMALL = plain(8, 2, 3)


def some_pairs(n, lines, count):
    """Pairs on so many lines, all of them another line if the count allows it, in no order."""
    return [((23 * i + 5) % lines, spread(n, i + 1)) for i in range(count)]


def counts():
    """Around the most pairs, with and without a number that has no partner. It counts neither for 24 nor for 25."""
    add("of no pairs", SMALL, [])
    add("of one number", SMALL, [], more=[2])
    add("of one pair", SMALL, [(2, 7)])
    add("of one pair and a number", SMALL, [(2, 7)], more=[1])
    many = plain(8, 1, MOST_PAIRS)
    pairs = some_pairs(8, MOST_PAIRS, MOST_PAIRS)
    assert len({k for k, _ in pairs}) == MOST_PAIRS
    add("of 63 pairs", many, pairs[:-1])
    add("of 64 pairs", many, pairs)
    add("of 64 pairs and a number", many, pairs, more=[9])


def too_many():
    """Counts that a byte would bring back to 0 or to 64, too; and 24 before 25."""
    for count, length in ((65, 0), (65, 64), (256, 255), (256, 0), (256 + 64, 63)):
        add_refused(f"of {count} pairs in {length} bytes and more", SMALL, [0, 5] + [0] * (2 * count - 2), "24 0", length)
    add_refused("of 65 pairs and a number", SMALL, [0, 5] + [0] * 129, "24 0", 64)
    add_refused("of 65 pairs, all on a line past the last", SMALL, [3, 5] * 65, "24 0", 64)


def buffers():
    """Of lengths that are far from the need."""
    add("of 3 pairs in buffers that are far longer", SMALL, [(2, 7), (3, 7), (0, 1)], [0, 17, 0], length=ROOM - 6)
    pairs = [(i % 3, 255 - i) for i in range(MOST_PAIRS)]
    add_refused("of 64 pairs in buffers of up to 63 bytes", SMALL, numbers_of(pairs), "25 0", 57)


# Lines

def one_line():
    """All pairs on one line: the last that is applied wins."""
    data = plain(8, 1, 1)
    add("of 64 pairs on one line", data, [(0, 255 - 3 * i) for i in range(MOST_PAIRS)])
    add("of 64 pairs on one line, the last three past the width", data,
        [(0, i + 1 if i < 61 else 2**8 + i) for i in range(MOST_PAIRS)], [0] * 61 + [14] * 3)
    add("of 64 pairs on one line, to and fro", data, [(0, 170 * (i % 2 == 0)) for i in range(MOST_PAIRS)])
    add("of a line refused after it was changed", SMALL, [(1, 5), (0, 3), (1, 2**8), (0, MOST)], [0, 0, 14, 14])
    add("of a line changed after it was refused", SMALL, [(1, 2**8), (0, MOST), (1, 5), (0, 3)], [14, 14, 0, 0])
    add("of two lines in turns", SMALL, [(0, 1), (2, 2), (0, 3), (2, 4), (0, 5)])


def again():
    """Differences that are there already, and lists that end with them: no byte is another one."""
    sheet = Sheet(8, [1, 2], [Line(5, second=1, difference=3), Line(3, 1, first=2, difference=6)]).pack()
    add("to the differences that are there", sheet, [(0, 3), (1, 6), (0, 3)])
    add("to other differences and back", sheet, [(0, 255), (1, 0), (0, 3), (1, 9), (1, 6)])
    assert all(change_all(sheet, numbers, 5)[0] == sheet for numbers in ([0, 3, 1, 6, 0, 3], [0, 255, 1, 0, 0, 3, 1, 9, 1, 6]))


def blocks():
    """Several checks are renewed in one call. Lines at block borders, in both orders, and of all blocks."""
    two, all_blocks = plain(8, 1, PER_BLOCK + 1), plain(8, 1, MAX_LINES)
    add("of lines 30 and 31", two, [(30, 1), (31, 2)])
    add("of lines 31 and 30, and 30 again", two, [(31, 255), (30, 254), (30, 3)])
    add("of lines at the borders of eight blocks", all_blocks,
        [(k, k % 255 + 1) for k in (247, 30, 31, 61, 62, 216, 217, 0)])
    pairs = some_pairs(8, MAX_LINES, MOST_PAIRS)
    assert {k // PER_BLOCK for k, _ in pairs} == set(range(8)) and len({k for k, _ in pairs}) == MOST_PAIRS
    add("of 64 lines in all eight blocks", all_blocks, pairs)


def checks():
    """Sums that pass 2^32 in the checks, up and down."""
    most = 2**32 - 1
    lines = [Line(2, constant=most, difference=most)] * 2 + [Line(2)] * 28 + [Line(6, constant=most, difference=most)] * 3
    data = Sheet(32, [most], lines).pack()
    add("where sums pass 2^32", data, [(31, 0), (30, 1), (2, most), (32, 2**31), (31, most), (0, 0), (1, 2**31)])
    add("where sums pass 2^32 many times", data, [(11 * i % 33, (most, 0, 2**31)[i % 3]) for i in range(3 * FEW_PAIRS)])


def self_xors():
    """Words XORed with themselves, which sealing refuses."""
    sheet = Sheet(8, [2, 3], [Line(2, difference=2), Line(1, first=2, second=2), Line(1)]).pack()
    add("of words XOR themselves", sheet, [(0, 7), (1, 1), (2, 255), (1, 8), (3, 1)], [0, 0, 0, 0, 17])
    assert outcome(sheet, True) == outcome(change_all(sheet, [0, 7, 1, 1], 2)[0], True) == " refused 23 1"


# Refused pairs

def refused_pairs():
    """First, last and between others, by 17 and by 14, and by 17 where both could."""
    past, wide, both = (3, 7), (1, 2**8), (3, 2**8)
    add("of refused pairs first", SMALL, [past, wide, both, (0, 1), (2, 9)], [17, 14, 17, 0, 0])
    add("of refused pairs last", SMALL, [(0, 1), (2, 9), past, wide, both], [0, 0, 17, 14, 17])
    add("of refused pairs between others", SMALL, [(0, 1), wide, (2, 9), past, both, (1, 4)], [0, 14, 0, 17, 17, 0])
    add("of refused pairs alone", SMALL, [past, wide, both], [17, 14, 17])
    add("of one refused pair", SMALL, [wide], [14])
    pairs = [((3, 7), (i // 3 % 3, 2**8), (i // 3 % 3, i))[i % 3] for i in range(MOST_PAIRS)]
    add("of 64 pairs, most refused", SMALL, pairs, [(17, 14, 0)[i % 3] for i in range(MOST_PAIRS)])


def limits():
    """Differences at the width's end, and past it with low bits that would pass."""
    for n in (2, 8, 31, 32):
        ends = [2**n - 1, 2**n, 2**n - 2, 2**32 - 1, 2**32, 2**32 + 1, 2**63, MOST]
        add(f"to differences at the end of width {n}", plain(n, 2, 3), [(i % 3, end) for i, end in enumerate(ends)],
            [0 if end < 2**n else 14 for end in ends])


def line_numbers():
    """Lines past the last, of numbers that a smaller type or a product with a record's size would bring back to a line."""
    for count in (1, PER_BLOCK):
        past = [count, 2 * PER_BLOCK, 2**8, 2**16, 2**32, 2**60, 2**63, MOST]
        add(f"of lines past the last of {count}", plain(8, 1, count), [(k, 5) for k in past], [17] * len(past))
    add("of the largest numbers", SMALL, [(MOST, MOST), (2, MOST), (MOST, 0), (0, 0), (2, 255)], [17, 14, 17, 0, 0])


# Refused lists

def refused_sheets():
    """By the reading, before anything is asked of list and buffer, also where a pair would mend what is wrong."""
    good = Sheet(8, [1, 2], [Line(1, second=1, difference=3), Line(2, first=2, difference=3), Line(6, difference=1)]).pack()
    mended, too_long = [1, 3], [1, 3] + [0] * 129
    wrong = seal_bytes(put_field(good, 1, "difference", 2**8))
    assert seal_bytes(put_field(wrong, 1, "difference", 3)) == good
    for name, data, refusal in (
            ("no bytes", b"", "1 0"),
            ("a block more than any sheet", resized(good, 10 * BLOCK), "1 0"),
            ("a wrong check in block 0", off(good, 0, 1), "2 0"),
            ("a wrong check in the line's block", off(good, 1, 1), "2 1"),
            ("a wrong check in another block", off(plain(8, 2, PER_BLOCK + 1), 2, 1), "2 2"),
            ("width 33", seal_bytes(put(good, 4, 33)), "4 0"),
            ("kind 10 in line 1", seal_bytes(put_field(good, 1, "kind", 10)), "9 1"),
            ("difference 2^8 in line 1", wrong, "14 1"),
            ("a byte after the lines", seal_bytes(put(good, record_at(3), 1)), "16 1")):
        add_refused(f"of 65 pairs and a number, with {name}", data, too_long, refusal, 0)
    add_refused("of no pairs, with difference 2^8 in line 1", wrong, [], "14 1", 0)
    add_refused("that would mend difference 2^8 in line 1", wrong, mended, "14 1", 0)
    add_refused("that would renew a wrong check", off(good, 1, 1), mended, "2 1", 0)


# Lists at random

def some_pair(sheet, random):
    """Mostly of a line that the sheet has, and mostly to a difference of its width."""
    k = random.randrange(len(sheet.lines)) if random.randrange(8) else random.choice((len(sheet.lines), random.randrange(2**64)))
    difference = random.randrange(2**sheet.n) if random.randrange(8) else 2**sheet.n + random.randrange(2**sheet.n)
    return k, difference, 17 if len(sheet.lines) <= k else 14 if 2**sheet.n <= difference else 0


def random_lists():
    random = Random(8)
    for i, n in enumerate((2, 31, 8, 13, 24, 32)):
        sheet = some_sheet(n, random.randrange(2, 9), random.choices(KINDS, k=random.randrange(2, 9)), random)
        some = [some_pair(sheet, random) for _ in range((3, 8, 20)[i % 3])]
        add(f"at random, {i}", sheet.pack(), [(k, difference) for k, difference, _ in some], [reply for *_, reply in some])


# The comparison itself. All lists above are right, so a comparison that says so of every list would not show in them.

# A list that is applied, one that the copy has, and whether they come to the same.
CLAIMS = {
    "the same pairs": ([(0, 1), (3, 1)], [(0, 1), (3, 1)], True),
    "pairs of two lines in another order": ([(0, 1), (1, 2)], [(1, 2), (0, 1)], True),
    "a pair that a later one undoes": ([(0, 1), (0, 2)], [(1, 0), (0, 2)], True),
    "refusals of one number": ([(3, 1), (0, 2)], [(MOST, 7), (0, 2)], True),
    "pairs of one line in another order": ([(0, 1), (0, 2)], [(0, 2), (0, 1)], False),
    "a difference that is another one": ([(0, 1), (1, 2)], [(0, 1), (1, 3)], False),
    "a line that is another one": ([(0, 1), (1, 2)], [(0, 1), (2, 2)], False),
    "a pair with a refusal of another number": ([(0, 1), (3, 1)], [(0, 1), (1, 2**8)], False),
    "a refused pair in another place": ([(3, 1), (0, 1)], [(0, 1), (3, 1)], False),
    "a pair fewer, though it changes nothing": ([(0, 1), (1, 0)], [(0, 1)], False),
    "a pair more, though it is refused": ([(0, 1)], [(0, 1), (3, 1)], False),
    "no pair, and one that changes nothing": ([], [(1, 0)], False),
}


def claims():
    for name, (one, other, is_same) in CLAIMS.items():
        text = add_case(f"claim of {name}", SMALL, numbers_of(one), max(0, len(one) - 1), numbers_of(other))[2]
        assert text.endswith(", as one by one" if is_same else ", not as one by one"), name


def texts():
    """The lines of all cases, and of their answers."""
    for group in (counts, too_many, buffers, one_line, again, blocks, checks, self_xors, refused_pairs, limits, line_numbers,
                  refused_sheets, random_lists, claims):
        group()
    return cases, answers
