"""The cases of reading and sealing that crates/sheet_cases runs, and the answers that it has to give. Both come from this file
and from oracle/trail.py, an independent reading of documents 01 and 02, alone.

A case is a line `NAME: LENGTH OFFSET=VALUE OFFSET=VALUE ..`, a sheet whose other bytes are 0. Its answer is a line
`NAME: read ANSWER; seal ANSWER OFFSET=VALUE ..`, with `accepted BLOCKS WIDTH INPUTS LINES` or `refused NUMBER PLACE` as
ANSWER, and at the end the bytes that sealing changes.
"""
from oracle.trail import (AMOUNT_KINDS, BLOCK, CONSTANT_KINDS, KINDS, PER_BLOCK, RECORD, TWO_WORD_KINDS, Line, Refused, Sheet,
                          read, record_at, seal_bytes)

# The longest sheet of a case.
MOST_BYTES = 2**16

# A record's fields: offset, size, and the kinds that use it.
FIELDS = {
    "kind": (0, 1, KINDS),
    "amount": (1, 1, AMOUNT_KINDS),
    "first operand": (2, 2, KINDS),
    "second operand": (4, 2, TWO_WORD_KINDS),
    "zero field": (6, 2, ()),
    "constant": (8, 4, CONSTANT_KINDS),
    "difference": (12, 4, KINDS),
}
# Most line faults are tried on this line of a sheet with two inputs, where it makes this word.
LINE, WORD = 3, 5

cases = {}


def add(name, data, question=0, sealing=None):
    """A case as it is. Reading has to refuse it by this question (0: accept it), so that it is what its name says; sealing too,
    where its question is given."""
    assert name not in cases and ":" not in name and len(data) <= MOST_BYTES, name
    for seals, number in ((False, question), (True, sealing)):
        assert number is None or outcome(data, seals).startswith(f" refused {number} " if number else " accepted "), name
    cases[name] = bytes(data)


def add_sealed(name, data, question=0, sealing=None):
    """A case with right checks."""
    add(name, seal_bytes(data), question, sealing)


# The two files

def outcome(data, sealing):
    try:
        sheet = read(data, sealing=sealing)
    except Refused as refusal:
        return f" refused {refusal.number} {refusal.place}"
    return f" accepted {len(data) // BLOCK} {sheet.n} {sheet.m} {len(sheet.lines)}"


def listed(pairs):
    return "".join(f" {offset}={value}" for offset, value in pairs)


def case_line(name, data):
    return f"{name}: {len(data)}{listed((i, b) for i, b in enumerate(data) if b)}\n"


def answer_line(name, data):
    seal = outcome(data, True)
    after = seal_bytes(data) if seal.startswith(" accepted") else data
    changes = listed((i, b) for i, b in enumerate(after) if b != data[i])
    return f"{name}: read{outcome(data, False)}; seal{seal}{changes}\n"


# Sheets, and changes to their bytes

def put(data, at, value, size=1):
    """The bytes with a little-endian number at an offset."""
    return data[:at] + value.to_bytes(size, "little") + data[at + size:]


def put_field(data, line, field, value):
    offset, size, _ = FIELDS[field]
    return put(data, record_at(line) + offset, value, size)


def resized(data, size):
    """The bytes cut off at a length, or with zeros up to it."""
    return data[:size] + bytes(max(0, size - len(data)))


def plain(n=8, m=2, count=1):
    """A good sheet of few non-zero bytes: every line is the XOR of word 0 with 0."""
    return Sheet(n, [0] * m, [Line(2)] * count).pack()


def with_lines(n, kinds):
    """A good sheet of two inputs and five lines, some of them of given kinds and with no used field zero."""
    lines = [Line(2) for _ in range(5)]
    for k, kind in kinds.items():
        lines[k] = Line(kind, first=1, difference=2**n - 1)
        lines[k].amount = 1 if kind in AMOUNT_KINDS else 0
        lines[k].second = 2 if kind in TWO_WORD_KINDS else 0
        lines[k].constant = 1 if kind in CONSTANT_KINDS else 0
    return Sheet(n, [1, 2], lines).pack()


def rich(n, m, count):
    """A good sheet with lines of all kinds and few zeros in the used fields."""
    def spread(k):
        return k * 2654435761 % 2**n

    lines = []
    for k in range(count):
        kind, last = KINDS[k % len(KINDS)], m + k - 1
        line = Line(kind, first=last, difference=spread(k + 7))
        line.amount = 1 + k % (n - 1) if kind in AMOUNT_KINDS else 0
        line.second = last // 2 if kind in TWO_WORD_KINDS else 0
        line.constant = spread(k + 11) if kind in CONSTANT_KINDS else 0
        lines.append(line)
    return Sheet(n, [spread(j + 1) for j in range(m)], lines).pack()


# Whole sheets

def whole_sheets():
    example = bytearray(2 * BLOCK)
    example[0:9] = bytes.fromhex("41 52 58 54 02 01 01 00 01")
    example[508:512] = bytes.fromhex("44 53 59 54")
    example[512] = 6
    example[520:528] = bytes.fromhex("01 00 00 00 03 00 00 00")
    example[1020:1024] = bytes.fromhex("0B 00 00 00")
    add("document 01's example", example)
    add("a line of each kind at width 16", rich(16, 3, 9))
    add("70 lines of all kinds at width 31", rich(31, 5, 70))
    add("248 lines of all kinds at width 32", rich(32, 8, 248))


# Question 1

def lengths():
    for size in (0, 1, 511, 512, 513, 1023, 1024, 1025, 4607, 4608, 4609, 5120, 65535, 65536):
        add(f"{size} zero bytes", bytes(size), 2 if size in (1024, 4608) else 1)
    for size in (0, 1, 511, 512, 513, 1023, 1024, 1025, 1535):
        add_sealed(f"good sheet of one line at {size} bytes", resized(plain(), size), 0 if size == 1024 else 1)
    for size in (4607, 4608, 4609, 5120, 65536):
        add_sealed(f"good sheet of 248 lines at {size} bytes", resized(plain(count=248), size), 0 if size == 4608 else 1)


# Question 2

def put_check(data, block, value):
    return put(data, BLOCK * block + 508, value % 2**32, 4)


def off(data, block, by):
    """The bytes with a block's check changed by an amount."""
    return put_check(data, block, int.from_bytes(data[BLOCK * block + 508:BLOCK * (block + 1)], "little") + by)


def checks():
    sheet, large = rich(32, 2, 6), plain(count=248)
    for byte in range(508, 512):
        add(f"check of block 0 wrong in byte {byte}", put(sheet, byte, sheet[byte] ^ 1), 2)
    add("wrong check in the last block", off(sheet, 1, 1), 2)
    add("wrong check in both blocks", off(off(sheet, 0, 1), 1, 2), 2)
    add("wrong check in block 8 of nine", off(large, 8, 2**31), 2)
    add("wrong checks in blocks 3 and 7 of nine", off(off(large, 7, 1), 3, -1), 2)
    add("index left out of the check of block 1", off(sheet, 1, -1), 2)
    add("index left out of the check of block 8", off(large, 8, -8), 2)
    garbage = put_check(put_check(sheet, 0, 0xDEADBEEF), 1, 0xFFFFFFFF)
    add("unsealed", put_check(put_check(sheet, 0, 0), 1, 0), 2)
    add("unsealed, 248 lines", Sheet(8, [0, 0], [Line(2)] * 248).pack(sealed=False), 2)
    add("old checks that are garbage", garbage, 2)
    add("old checks that are garbage, and width 33", put(garbage, 4, 33), 2)
    add("a difference changed after sealing", put_field(sheet, 2, "difference", 1), 2)
    add_sealed("1024 zero bytes, sealed", bytes(1024), 3)


# Questions 3 to 8

def header():
    for byte in range(4):
        add_sealed(f"wrong mark byte {byte}", put(plain(), byte, plain()[byte] ^ 32), 3)
    for n in (0, 1, 2, 32, 33, 255):
        add_sealed(f"width {n}", put(plain(), 4, n), 0 if 2 <= n <= 32 else 4)
    for m in (0, 1, 8, 9, 255):
        add_sealed(f"{m} inputs", put(plain(), 5, m), 0 if 1 <= m <= 8 else 5)
    for byte in (40, 41, 256, 506, 507):
        add_sealed(f"header byte {byte} not zero", put(plain(), byte, 128), 8)


def line_counts():
    for count in (0, 1, 31, 32, 62, 63, 248, 249, 257, 65535):
        need = -(-count // PER_BLOCK)
        for blocks in range(max(0, need - 1), need + 2) if count < 256 else (1, 8):
            data = resized(plain(count=min(count, PER_BLOCK * blocks)), BLOCK * (1 + blocks))
            right = 1 <= count <= 248 and blocks == need
            question = 1 if not 1 <= blocks <= 8 else 0 if right else 6
            add_sealed(f"{count} lines in {blocks} line blocks", put(data, 6, count, 2), question)


def input_differences():
    def sheet(n, m, word, difference):
        return put(plain(n, m), 8 + 4 * word, difference, 4)

    for n in (2, 8, 31):
        for word in (0, 2):
            add_sealed(f"input difference {word} is 2^{n} at width {n}", sheet(n, 3, word, 2**n), 7)
    for n in (2, 8, 31, 32):
        add_sealed(f"all input differences are 2^{n} - 1 at width {n}", Sheet(n, [2**n - 1] * 8, [Line(2)]).pack())
    add_sealed("input difference 0 is 2^32 - 1 at width 31", sheet(31, 1, 0, 2**32 - 1), 7)
    for m in range(1, 8):
        add_sealed(f"{m} inputs, a difference of 1 after them", sheet(8, m, m, 1), 7)
        add_sealed(f"{m} inputs, a difference of 2^31 at the last place", sheet(8, m, 7, 2**31), 7)


# Questions 9 to 15, and 23

def kinds():
    for kind in KINDS:
        add_sealed(f"kind {kind}", with_lines(8, {LINE: kind}))
    for kind in (0, 10, 128, 255):
        add_sealed(f"kind {kind}", put_field(with_lines(8, {LINE: 1}), LINE, "kind", kind), 9)
    for line in (0, 30, 31, 61, 62):
        add_sealed(f"kind 0 in line {line} of 63", put_field(plain(count=63), line, "kind", 0), 9)


def operands():
    words = {"the last earlier word": WORD - 1, "the line's own word": WORD, "the next line's word": WORD + 1,
             "word 256": 256, "word 65535": 65535}
    for kind in KINDS:
        for field in ("first operand", "second operand"):
            if kind in FIELDS[field][2]:
                for name, word in words.items():
                    data = put_field(with_lines(8, {LINE: kind}), LINE, field, word)
                    add_sealed(f"kind {kind}, {field} {name}", data, 0 if word < WORD else 10)
    for word in (254, 255, 256):
        data = put_field(plain(m=8, count=248), 247, "first operand", word)
        add_sealed(f"operand {word} in line 247 after 8 inputs", data, 0 if word < 255 else 10)
    for kind, question, sealing in ((1, 0, 23), (5, 11, 11), (9, 11, 11)):
        data = put_field(with_lines(8, {LINE: kind}), LINE, "second operand", 1)
        add_sealed(f"kind {kind} on one word twice", data, question, sealing)


def self_xors():
    """A word XORed with itself: question 23, which sealing alone asks, after 11."""
    def itself(data, line, word):
        data = put_field(put_field(data, line, "kind", 1), line, "first operand", word)
        return put_field(data, line, "second operand", word)

    small, full = plain(count=5), plain(m=8, count=248)
    for line, word in ((0, 0), (0, 1), (LINE, 0), (LINE, WORD - 1)):
        add_sealed(f"word {word} XOR itself in line {line}", itself(small, line, word), 0, 23)
    for line, word in ((0, 7), (30, 37), (247, 0), (247, 254)):
        add_sealed(f"word {word} XOR itself in line {line} of 248", itself(full, line, word), 0, 23)
    for bit in (0, 3, 7):
        other = 100 ^ 2**bit
        data = put_field(itself(full, 247, 100), 247, "second operand", other)
        add_sealed(f"word 100 XOR word {other} in line 247 of 248", data, 0, 0)
    for word in (WORD, 256, 65535):
        add_sealed(f"word {word} XOR itself in line {LINE}, where it is no earlier word", itself(small, LINE, word), 10, 10)
    # Both operand fields are equal in these, too.
    for kind in KINDS:
        if kind not in TWO_WORD_KINDS:
            add_sealed(f"kind {kind} of word 0", put_field(with_lines(8, {LINE: kind}), LINE, "first operand", 0), 0, 0)
    # With another fault, in the same line and elsewhere.
    data = itself(small, LINE, 1)
    for name, other, question, sealing in (
            ("zero field", put_field(data, LINE, "zero field", 1), 15, 23),
            ("amount", put_field(data, LINE, "amount", 1), 15, 23),
            ("constant", put_field(data, LINE, "constant", 2**31), 15, 23),
            ("difference 2^8", put_field(data, LINE, "difference", 2**8), 14, 23),
            ("difference 2^8 and zero field", put_field(put_field(data, LINE, "difference", 2**8), LINE, "zero field", 1), 14, 23),
            ("kind 10 in the line before", put_field(data, LINE - 1, "kind", 10), 9, 9),
            ("zero field in the line before", put_field(data, LINE - 1, "zero field", 1), 15, 15),
            ("plus itself in the line before", put_field(itself(data, LINE - 1, 1), LINE - 1, "kind", 5), 11, 11),
            ("kind 10 in the line after", put_field(data, LINE + 1, "kind", 10), 9, 23),
            ("zero field in the line after", put_field(data, LINE + 1, "zero field", 1), 15, 23),
            ("plus itself in the line after", put_field(itself(data, LINE + 1, 1), LINE + 1, "kind", 5), 11, 23),
            ("header byte 507", put(data, 507, 1), 8, 8),
            ("byte 507 of line block 1", put(data, BLOCK + 507, 1), 16, 23)):
        add_sealed(f"word 1 XOR itself in line {LINE}, {name}", other, question, sealing)
    add_sealed(f"word 1 XOR itself in lines {LINE - 1} and {LINE}", itself(data, LINE - 1, 1), 0, 23)
    add(f"word 1 XOR itself in line {LINE}, unsealed", put_check(put_check(data, 0, 0), 1, 0), 2, 23)
    add(f"word 1 XOR itself in line {LINE}, wrong check in the last block", off(seal_bytes(data), 1, 1), 2, 23)


def limits():
    """The fields that the width limits."""
    for n in (2, 8, 32):
        for kind in AMOUNT_KINDS:
            for amount in sorted({0, 1, n - 1, n, 255}):
                data = put_field(with_lines(n, {LINE: kind}), LINE, "amount", amount)
                add_sealed(f"kind {kind}, amount {amount} at width {n}", data, 0 if 1 <= amount <= n - 1 else 12)
    for n in (2, 8, 31, 32):
        for field, question in (("constant", 13), ("difference", 14)):
            for kind in FIELDS[field][2]:
                data = with_lines(n, {LINE: kind})
                add_sealed(f"kind {kind}, {field} 2^{n} - 1 at width {n}", put_field(data, LINE, field, 2**n - 1))
                if n < 32:
                    add_sealed(f"kind {kind}, {field} 2^{n} at width {n}", put_field(data, LINE, field, 2**n), question)


def unused_fields():
    for kind in KINDS:
        for field, (_, size, users) in FIELDS.items():
            if kind not in users:
                for value in (1, 2**(8 * size - 1)):
                    data = put_field(with_lines(8, {LINE: kind}), LINE, field, value)
                    add_sealed(f"kind {kind}, unused {field} is {value}", data, 15)


# Question 16

def rest():
    small, several, full = plain(count=3), plain(count=70), plain(count=248)
    for byte in range(RECORD):
        add_sealed(f"byte {byte} of the first record past L not zero", put(small, record_at(3) + byte, 1), 16)
    for byte in (0, RECORD - 1):
        add_sealed(f"byte {byte} of the last record not zero", put(small, record_at(30) + byte, 1), 16)
    for byte in range(496, 508):
        add_sealed(f"byte {byte} of line block 1 not zero", put(small, BLOCK + byte, 1), 16)
    for name, at in (("first record past L", record_at(70)), ("last record", record_at(92))):
        for byte in (0, RECORD - 1):
            add_sealed(f"70 lines, byte {byte} of the {name} not zero", put(several, at + byte, 255), 16)
    for block in (1, 2, 3):
        for byte in (496, 507):
            add_sealed(f"70 lines, byte {byte} of line block {block} not zero", put(several, BLOCK * block + byte, 255), 16)
    for block in (1, 8):
        add_sealed(f"248 lines, byte 507 of line block {block} not zero", put(full, BLOCK * block + 507, 1), 16)
    for first, second in ((1, 2), (2, 3), (1, 3)):
        data = put(put(several, BLOCK * first + 500, 1), BLOCK * second + 500, 1)
        add_sealed(f"70 lines, byte 500 of line blocks {first} and {second} not zero", data, 16)


# Two faults at once. Neighbours are enough: questions in any other order have two neighbours in the wrong order.

def first_twice(data, line):
    """Names the first operand's word as the second operand too."""
    at = record_at(line) + FIELDS["first operand"][0]
    return put_field(data, line, "second operand", int.from_bytes(data[at:at + 2], "little"))


# By question: a fault in the header, and a fault in a line with the kinds of line that can have it. The width is 8.
HEADER_FAULTS = {
    3: ("wrong mark", lambda data: put(data, 0, 0)),
    4: ("width 33", lambda data: put(data, 4, 33)),
    5: ("9 inputs", lambda data: put(data, 5, 9)),
    6: ("no lines", lambda data: put(data, 6, 0, 2)),
    7: ("input difference 2^8", lambda data: put(data, 8, 2**8, 4)),
    8: ("header byte 40", lambda data: put(data, 40, 1)),
}
LINE_FAULTS = {
    9: ("kind 10", KINDS, lambda data, line: put_field(data, line, "kind", 10)),
    10: ("operand 99", KINDS, lambda data, line: put_field(data, line, "first operand", 99)),
    11: ("one word twice", (5, 9), first_twice),
    12: ("amount 8", AMOUNT_KINDS, lambda data, line: put_field(data, line, "amount", 8)),
    13: ("constant 2^8", CONSTANT_KINDS, lambda data, line: put_field(data, line, "constant", 2**8)),
    14: ("difference 2^8", KINDS, lambda data, line: put_field(data, line, "difference", 2**8)),
    15: ("zero field", KINDS, lambda data, line: put_field(data, line, "zero field", 1)),
}


def neighbours(questions):
    """The questions in their order, each with the next one."""
    ordered = sorted(questions)
    return zip(ordered, ordered[1:])


def two_questions():
    sheet = with_lines(8, {LINE: 5})
    for a, b in neighbours(HEADER_FAULTS):
        (name, fault), (other_name, other) = HEADER_FAULTS[a], HEADER_FAULTS[b]
        add_sealed(f"{name}, {other_name}", other(fault(sheet)), a)
    add("1025 bytes, wrong check", off(sheet, 0, 1) + bytes(1), 1)
    add("wrong check in the last block, wrong mark", off(seal_bytes(put(sheet, 0, 0)), 1, 1), 2)
    add_sealed("header byte 40, kind 10", put_field(put(sheet, 40, 1), LINE, "kind", 10), 8)
    add_sealed("zero field, byte 507 of line block 1", put(put_field(sheet, LINE, "zero field", 1), BLOCK + 507, 1), 15)
    late = put_field(plain(count=63), 40, "kind", 10)
    add_sealed("kind 10 in line 40, byte 500 of line block 1", put(late, BLOCK + 500, 1), 9)


def two_questions_of_a_line():
    """Neighbours among the questions that can refuse a line of the kind."""
    for kind in KINDS:
        possible = [question for question, (_, kinds, _) in LINE_FAULTS.items() if kind in kinds]
        for a, b in neighbours(possible):
            (name, _, fault), (other_name, _, other) = LINE_FAULTS[a], LINE_FAULTS[b]
            data = other(fault(with_lines(8, {LINE: kind}), LINE), LINE)
            add_sealed(f"a line of kind {kind} with {name}, {other_name}", data, a)


def two_lines():
    """Faults in two lines: the earlier line decides, whichever question is the earlier one."""
    for pair in neighbours(LINE_FAULTS):
        for a, b in (pair, pair[::-1]):
            (name, kinds, fault), (other_name, other_kinds, other) = LINE_FAULTS[a], LINE_FAULTS[b]
            sheet = with_lines(8, {1: kinds[-1], 3: other_kinds[-1]})
            add_sealed(f"{name} in line 1, {other_name} in line 3", other(fault(sheet, 1), 3), a)


def texts():
    """The lines of all cases, and of their answers."""
    for group in (whole_sheets, lengths, checks, header, line_counts, input_differences, kinds, operands, self_xors, limits,
                  unused_fields, rest, two_questions, two_questions_of_a_line, two_lines):
        group()
    return [case_line(*case) for case in cases.items()], [answer_line(*case) for case in cases.items()]
