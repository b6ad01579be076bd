"""The cases of line reports that crates/report_cases runs, and the answers that it has to give. Both come from this file and
from oracle/trail.py, an independent reading of documents 01 and 02, alone. A differential's report is held here, too, against
a count over all operand values; only at 32 bits the count is the oracle's, by carry pairs, and the program's is the one that
tries every word.

A case is a line `NAME: NUMBERS`, by the name's first word one of
- `every`: KIND WIDTH, all differentials of a kind and a width, in the order of the part that the kind names (the second
  operand's difference, the constant or the amount), the first operand's difference and the stated difference. Answered by
  how many there are, how many are impossible or wrong, sums of what the report buffer has of them, and a checksum;
- `differential`: KIND WIDTH AMOUNT CONSTANT FIRST SECOND DIFFERENCE, one of them. Answered by the report, the count of
  fitting operand values, and whether the two agree;
- `sheet` and `unsealed`: LENGTH OFFSET=VALUE .., a sheet whose other bytes are 0, sealed by the program or left as it is.
  Answered by the reports of its lines and of the line number after the last, its totals, and the report buffer at a length
  one byte short, just right, and five bytes longer than is needed. The buffer's bytes are A5 before;
- `claim`: KIND WIDTH REPORT WEIGHT CHAINS N COUNT, a report by its numbers (halves with whole bits) and a count of operand
  values. Answered by whether the report says what the count says: some do not.
"""
from collections import Counter

from oracle.trail import (AMOUNT_KINDS, BLOCK, CARRY_KINDS, CONSTANT_KINDS, KINDS, NAMES, TWO_WORD_KINDS, Line, Refused, Sheet,
                          apply, count6, line_report, read, report_bytes, rotl, seal_bytes, totals)
from sheet_cases import case_line, put, put_field

# The program's two texts, line by line.
cases, answers = [], []


# One differential

def lone(kind, n, amount=0, constant=0, first=0, second=0, difference=0):
    """A sheet of one line, on inputs 0 and 1."""
    return Sheet(n, [first, second], [Line(kind, amount, 0, int(kind in TWO_WORD_KINDS), 0, constant, difference)])


def results(sheet):
    """How many operand values give each difference of the lone line's results."""
    n, line, (first, second) = sheet.n, sheet.lines[0], sheet.inputs
    return Counter(apply(n, line, x, y) ^ apply(n, line, x ^ first, y ^ second)
                   for x in range(2**n) for y in (range(2**n) if line.kind in TWO_WORD_KINDS else (0,)))


def agrees(kind, n, report, count):
    """Whether a report says what the count of fitting operand values says."""
    number, weight, chains, fitting = report
    values = 2**(2 * n if kind in TWO_WORD_KINDS else n)
    if number == 0:
        return count == 0
    if number == 1:
        return kind not in CARRY_KINDS and count == values
    if number == 2:
        return kind in (5, 9) and weight % 16 == 0 and count * 2**(weight // 16) == values
    return kind == 6 and 0 < count == fitting and 2**(16 * n - weight) <= count**16 <= 2**(16 * n - weight + 3 * chains)


def shown(report):
    return f" {NAMES[report[0]]} {report[1]} {report[2]} {report[3]}"


def differential(name, kind, n, amount=0, constant=0, first=0, second=0, difference=0):
    """A case of one differential; returns its report."""
    sheet = lone(kind, n, amount, constant, first, second, difference)
    report = line_report(sheet, 0)
    count = count6(n, constant, first, difference) if n == 32 else results(sheet)[difference]
    assert agrees(kind, n, report, count), name
    cases.append(f"differential {name}: {kind} {n} {amount} {constant} {first} {second} {difference}\n")
    answers.append(f"differential {name}:{shown(report)}, count {count}, right\n")
    return report


# All differentials of a kind and a width

def parts(kind, n):
    """The values of the part that a kind names beside two differences, and the field that it is."""
    if kind in AMOUNT_KINDS:
        return range(1, n), "amount"
    return range(2**n), "constant" if kind in CONSTANT_KINDS else "second"


def with_number(checksum, number):
    return (1000003 * checksum + number) % (2**32 - 5)


def every(kind, n):
    values, field = parts(kind, n)
    reports, checksum = [], 0
    for part in values:
        for first in range(2**n):
            counts = results(lone(kind, n, first=first, **{field: part}))
            for difference in range(2**n):
                report = line_report(lone(kind, n, first=first, difference=difference, **{field: part}), 0)
                assert agrees(kind, n, report, counts[difference]), (kind, n, part, first, difference)
                reports.append(report)
                for number in report:
                    checksum = with_number(checksum, number)
    _, weight, chains, fitting = map(sum, zip(*reports))
    name = f"every differential of kind {kind} and width {n}"
    cases.append(f"{name}: {kind} {n}\n")
    answers.append(f"{name}: {len(reports)}, impossible {sum(r[0] == 0 for r in reports)}, wrong 0, weight {weight}, "
                   f"chains {chains}, N {fitting}, checksum {checksum}\n")


def all_differentials():
    for kind in KINDS:
        for n in (2, 3, 4, 5) if kind in CARRY_KINDS else (2, 3, 4):
            every(kind, n)


# Document 01's starred cases and misreadings, with the numbers that it prints. The width is 4.

# (a, u, v): N, weight in sixteenths, chains; None where impossible.
STARRED_6 = {(0, 1, 1): (16, 0, 1), (0, 1, 3): None, (1, 1, 1): None, (1, 1, 3): (8, 16, 1), (3, 4, 4): (4, 32, 1),
             (3, 4, 12): (12, 8, 1), (5, 8, 8): (16, 0, 0), (0, 0, 0): (16, 0, 0), (7, 0, 1): None}
# (first, second, stated difference): whole bits.
STARRED_5 = {(1, 0, 1): 1, (8, 0, 8): 0, (1, 1, 0): 1, (0, 0, 1): None}


def constant_added(name, n, a, u, v, form="d"):
    return differential(f"{name} ({a:{form}},{u:{form}},{v:{form}})", 6, n, constant=a, first=u, difference=v)


def of_two_words(name, kind, n, alpha, beta, gamma):
    return differential(f"{name} ({alpha},{beta} to {gamma})", kind, n, first=alpha, second=beta, difference=gamma)


def starred():
    for (a, u, v), printed in STARRED_6.items():
        number, weight, chains, fitting = constant_added("01's starred, kind 6,", 4, a, u, v)
        assert number == (3 if printed else 0) and (fitting, weight, chains) == (printed or (0, 0, 0))
    for (alpha, beta, gamma), bits in STARRED_5.items():
        report = of_two_words("01's starred, kind 5,", 5, 4, alpha, beta, gamma)
        assert report == ((0, 0, 0, 0) if bits is None else (2, 16 * bits, 0, 0))


def misreadings():
    assert constant_added("not kind 5 with difference 0,", 4, 0, 1, 3) == (0, 0, 0, 0)
    assert of_two_words("kind 5 with difference 0,", 5, 4, 1, 0, 3) == (2, 32, 0, 0)
    assert of_two_words("the top position costs nothing,", 5, 4, 8, 0, 8) == (2, 0, 0, 0)
    assert constant_added("counted and not certain,", 4, 5, 8, 8) == (3, 0, 0, 16)


# Document 02's shifts and subtraction

# (first, second, stated difference) of kind 9 at width 4: whole bits, those of the addition that turns result and second word
# back into the first; None where impossible. Never certain, and the top position costs nothing here either.
SUBTRACTIONS = {(0, 0, 0): 0, (1, 0, 1): 1, (0, 1, 1): 1, (0, 1, 15): 3, (1, 1, 0): 1, (8, 0, 8): 0, (0, 8, 8): 0,
                (0, 0, 1): None}
# (kind, amount, difference, stated difference) at width 16: whether it is certain. A bit that passes the end is dropped, and
# neither it nor the top bit is filled in at the other end.
SHIFTS = {(7, 1, 0x8001, 2): True, (7, 1, 0x8001, 3): False, (7, 15, 0xFFFF, 0x8000): True, (7, 15, 0xFFFE, 0): True,
          (8, 1, 0x8001, 0x4000): True, (8, 1, 0x8001, 0xC000): False, (8, 15, 0xFFFF, 1): True, (8, 15, 0x7FFF, 0): True}


def subtractions():
    for (alpha, beta, gamma), bits in SUBTRACTIONS.items():
        report = of_two_words("a subtraction", 9, 4, alpha, beta, gamma)
        assert report == ((0, 0, 0, 0) if bits is None else (2, 16 * bits, 0, 0))


def shifts():
    for (kind, amount, first, difference), certain in SHIFTS.items():
        name = f"kind {kind} by {amount} ({first:x} to {difference:x})"
        assert differential(name, kind, 16, amount, first=first, difference=difference) == (int(certain), 0, 0, 0)


# Differentials of source 000

def example_1():
    report = constant_added("000's Example 1", 10, 0b1000101110, 0b1010001110, 0b1010001010, "b")
    assert report[3] == 2**10 * 5 // 16


# LEA's key schedule: in round i, T[0] becomes its sum with constant i mod 4, rotated left by i, itself rotated left by 1.
LEA_CONSTANTS = (0xC3EFE9DB, 0x44626B02, 0x79E27C8A, 0x78DF30EC)
# Table 15's rows whose key schedule costs: round, and the weight in bits that 000 prints for it.
TABLE_15 = {0: 0.408, 1: 0.462, 2: 0.695, 6: 1.0}


def table_15():
    for i, bits in TABLE_15.items():
        u = rotl(32, 0x10000000, i) if i else 0x10000000
        a = rotl(32, LEA_CONSTANTS[i % 4], i) if i else LEA_CONSTANTS[0]
        _, _, _, fitting = constant_added(f"000's Table 15, round {i},", 32, a, u, u, "08x")
        assert abs(fitting / 2**32 - 2**-bits) < 0.001
        assert i != 0 or fitting == 3238093392


# The logarithm's four bits

def four_bits():
    """At position 6 a chain of 6 states 000 ends, with p = 32 + 2 F: after its highest one, at place 5, the four bits are F."""
    for f in range(16):
        assert constant_added(f"the four bits {f}", 7, 48 + f, 32, 32) == (3, 16 - f, 1, 64 + 4 * f)


# Document 02's thirty-two bits for T and p (W-204)

# (a, u), at width 32 and with the stated difference u: N, weight in sixteenths, chains. At position 31 a chain of 31 states 000
# ends, or of 29, or of 28, and its T or p is at an end of what it can be.
LONG_CHAINS = {(0, 0x40000000): (2**32, 0, 1), (0x3FFFFFFF, 0x40000000): (4, 480, 1),
               (0x7FFFFFFF, 0x40000000): (4294967292, 1, 1), (0x3FFFFFFE, 0x40000001): (8, 464, 2),
               (0x40000002, 0x40000001): (8, 464, 2), (0x7FFFFFFF, 0x40000002): (2**31, 16, 2)}
# Those that are held against a count of all words: p is 2^31; T, which is p, is 2^31 - 2.
LARGEST = {"p": (0, 0x40000000), "T": (0x7FFFFFFF, 0x40000000)}


def long_chains():
    """All six as the lines of one sheet, and two against a count of all words."""
    for number, (a, u) in LARGEST.items():
        constant_added(f"largest {number}", 32, a, u, u, "08x")
    inputs = [0x40000000, 0x40000001, 0x40000002]
    lines = [plus(a, u, inputs.index(u)) for a, u in LONG_CHAINS]
    reports = [line_report(Sheet(32, inputs, lines), k) for k in range(len(lines))]
    assert reports == [(3, weight, chains, fitting) for fitting, weight, chains in LONG_CHAINS.values()]
    add_totals("long chains", inputs, lines, (0, 0 + 480 + 1 + 464 + 464 + 16, 9), 32)


# Whole sheets

def buffer_answer(sheet, refusal, length):
    """What is answered for a buffer of a length, with its bytes afterwards."""
    data = b"" if refusal else report_bytes(sheet)
    if not refusal and length < len(data):
        refusal, data = " refused 18 0", b""
    answer = refusal or f" written {len(data)}"
    return f"\n  buffer of {length}{answer} [{(data + bytes([0xA5]) * (length - len(data))).hex()}]"


def sheet_answer(data):
    try:
        sheet, refusal = read(data), ""
    except Refused as refused:
        sheet, refusal = Sheet(0, [], []), f" {refused}"
    count = len(sheet.lines)
    reports = [shown(line_report(sheet, k)) for k in range(count)] + [refusal or " refused 17 0"]
    lines = "".join(f"\n  line {k}{report}" for k, report in enumerate(reports))
    total = refusal or " %d %d %d" % totals(sheet)
    lengths = [16 * count - 1, 16 * count, 16 * count + 5]
    return f"{lines}\n  totals{total}" + "".join(buffer_answer(sheet, refusal, n) for n in lengths if 0 <= n)


def add_sheet(name, data):
    """A sheet that the program seals; its checks are left 0."""
    sheet = read(data, sealing=True)
    cases.append(case_line(f"sheet {name}", sheet.pack(sealed=False)))
    answers.append(f"sheet {name}:{sheet_answer(data)}\n")


def add_unsealed(name, data, answer):
    """A sheet that the program leaves as it is. What is told of line 0 is stated, so that the case is what its name says."""
    assert sheet_answer(data).startswith(f"\n  line 0 {answer}\n"), name
    cases.append(case_line(f"unsealed {name}", data))
    answers.append(f"unsealed {name}:{sheet_answer(data)}\n")


def spread(n, k):
    return k * 2654435761 // 2**7 % 2**n


def difference_made(sheet, line, x, y):
    """By what the line's results differ, where the first run's operands are x and y."""
    known = sheet.differences()
    return apply(sheet.n, line, x, y) ^ apply(sheet.n, line, x ^ known[line.first], y ^ known[line.second])


def some_line(kind, n, word, k):
    """A line that makes a word, from the word before it and one about half as far; its difference is still to be stated."""
    line = Line(kind, first=word - 1)
    line.amount = 1 + k % (n - 1) if kind in AMOUNT_KINDS else 0
    line.second = (word - 1) // 2 if kind in TWO_WORD_KINDS else 0
    line.constant = spread(n, k + 11) if kind in CONSTANT_KINDS else 0
    return line


def trail(n, m, count, kind_of=lambda k: KINDS[k % len(KINDS)]):
    """A sheet with lines of all kinds. Most state a difference that some operand values have, every fifth another one."""
    sheet = Sheet(n, [spread(n, j + 1) for j in range(m)], [])
    for k in range(count):
        line = some_line(kind_of(k), n, m + k, k)
        line.difference = difference_made(sheet, line, spread(n, k + 3), spread(n, k + 5)) ^ int(k % 5 == 4)
        sheet.lines.append(line)
    return sheet.pack()


def whole_sheets():
    add_sheet("of document 01's example", Sheet(2, [1], [Line(6, constant=1, difference=3)]).pack())
    for n, m, count in ((8, 2, 12), (16, 3, 31), (5, 4, 32), (32, 8, 248)):
        add_sheet(f"with {count} lines of all kinds at width {n}", trail(n, m, count))


# Copies (document 02, W-202). The totals are worked out by hand, most of them from the numbers that document 01 prints of its
# starred cases at width 4 and from SUBTRACTIONS. A name ends with what some wrong program does otherwise.

def of_words(kind, difference, first=0, second=1):
    return Line(kind, first=first, second=second, difference=difference)


def plus(constant, difference, word=0):
    return Line(6, first=word, constant=constant, difference=difference)


def add_totals(name, inputs, lines, by_hand, n=4):
    """A sheet on inputs of these differences. Its totals, by hand: impossible lines, weight, chains."""
    sheet = Sheet(n, inputs, lines)
    assert totals(sheet) == by_hand, (name, totals(sheet))
    add_sheet(f"with {name}", sheet.pack())


def copies():
    """A copy adds nothing, wherever it stands."""
    add_totals("a sum three times, not charged at every other copy", [1, 0], [of_words(5, 1)] * 3, (0, 16, 0))
    add_totals("a subtraction twice, charged once as a sum is", [0, 1], [of_words(9, 15)] * 2, (0, 48, 0))
    add_totals("a constant added twice, its weight and its chain charged once", [4], [plus(3, 12)] * 2, (0, 8, 1))
    add_totals("a constant added twice at weight 0, its chain charged once", [1], [plus(0, 1)] * 2, (0, 0, 1))
    add_totals("a line between a sum and its copy, not compared with the line before alone", [1, 0],
               [of_words(5, 1), of_words(9, 1), of_words(5, 1)], (0, 16 + 16, 0))
    add_totals("two sums by turns, not compared with line 0 alone", [4], [plus(3, 12), plus(3, 4)] * 2, (0, 8 + 32, 2))


def impossible_copies():
    """A copy of an impossible line counts. A possible line with another difference is no copy of it, nor it of that."""
    kinds = [of_words(1, 1), Line(2, constant=7, difference=1), of_words(5, 1), plus(7, 1), of_words(9, 1)]
    kinds += [Line(kind, 1, difference=1) for kind in AMOUNT_KINDS]
    add_totals("an impossible line of each kind twice, each counted twice", [0, 0], kinds * 2, (18, 0, 0))
    add_totals("an impossible difference and then a possible one, which is charged", [1], [plus(1, 1), plus(1, 3)],
               (1, 16, 1))
    add_totals("a possible and an impossible difference by turns, each with its own report", [1],
               [plus(1, 3), plus(1, 1)] * 2, (2, 16, 1))


def apart_by_one_field():
    """Lines with one field apart, or with the operands exchanged, are no copies. Words that set lines apart have the same
    difference. Rotations and shifts cost nothing, so their impossible lines have to tell."""
    add_totals("a sum and a subtraction, both charged since the kinds differ", [1, 0], [of_words(5, 1), of_words(9, 1)],
               (0, 16 + 16, 0))
    add_totals("an XOR and a sum, which is charged since the kinds differ", [1, 0], [of_words(1, 1), of_words(5, 1)],
               (0, 16, 0))
    add_totals("an XOR and a subtraction, which is charged since the kinds differ", [1, 0], [of_words(1, 1), of_words(9, 1)],
               (0, 16, 0))
    add_totals("word 0 added and the constant 0, both charged since the kinds differ", [0, 1],
               [of_words(5, 1, 1, 0), plus(0, 1, 1)], (0, 16, 1))
    add_totals("a constant XORed and added, which is charged since the kinds differ", [4],
               [Line(2, constant=3, difference=4), plus(3, 4)], (0, 32, 1))
    add_totals("rotations and shifts by one amount, each with its own kind's report", [1],
               [Line(kind, 1, difference=2) for kind in AMOUNT_KINDS], (2, 0, 0))
    add_totals("rotations and shifts by two amounts, each with its own amount's report", [1],
               [Line(kind, amount, difference=2) for kind in (3, 7) for amount in (1, 2)], (2, 0, 0))
    for kind, name in ((5, "sums"), (9, "subtractions")):
        add_totals(f"{name} apart by the order of the words, both charged", [1, 1],
                   [of_words(kind, 0), of_words(kind, 0, 1, 0)], (0, 16 + 16, 0))
        add_totals(f"{name} apart by the first word, both charged though its difference is the same", [1, 0, 1],
                   [of_words(kind, 1, first) for first in (0, 2)], (0, 16 + 16, 0))
        add_totals(f"{name} apart by the second word, both charged though its difference is the same", [1, 0, 0],
                   [of_words(kind, 1, 0, second) for second in (1, 2)], (0, 16 + 16, 0))
        add_totals(f"{name} apart by the stated difference, both charged", [1, 0], [of_words(kind, 1), of_words(kind, 3)],
                   (0, 16 + 32, 0))
    add_totals("a constant added to two words, both charged though their difference is the same", [1, 1],
               [plus(1, 3, word) for word in (0, 1)], (0, 16 + 16, 2))
    add_totals("sums of a word and each of two copies, both charged", [4, 0],
               [plus(3, 12), plus(3, 12), of_words(5, 12, 2, 1), of_words(5, 12, 3, 1)], (0, 8 + 16 + 16, 1))
    # At every width an odd constant takes difference 1 to 3 at a cost of one bit, with one chain.
    add_totals("two constants added, both charged", [1], [plus(1, 3), plus(3, 3)], (0, 16 + 16, 2))
    add_totals("constants apart in the lowest bit, both charged", [4], [plus(2, 4), plus(3, 4)], (0, 16 + 32, 2))
    add_totals("constant and stated difference apart by the same bit, both charged", [1], [plus(1, 3), plus(5, 7)],
               (0, 16 + 32, 2))
    add_totals("constants apart in the highest of 32 bits, both charged", [1], [plus(1, 3), plus(2**31 + 1, 3)],
               (0, 16 + 16, 2), 32)
    add_totals("stated differences apart in the highest of 32 bits, both charged", [2**30, 0],
               [of_words(5, 2**30), of_words(5, 2**31 + 2**30)], (0, 16 + 16, 0), 32)


def refused_sheets():
    good = trail(8, 2, 12)
    add_unsealed("with a wrong check in its last block", put(good, 2 * BLOCK - 1, good[-1] ^ 1), "refused 2 1")
    add_unsealed("with width 33", seal_bytes(put(good, 4, 33)), "refused 4 0")
    add_unsealed("with kind 10 in line 3", seal_bytes(put_field(good, 3, "kind", 10)), "refused 9 3")
    add_unsealed("of one block", good[:BLOCK], "refused 1 0")


def self_xors():
    """Words XORed with themselves, which sealing refuses (W-205), in a sheet with right checks: certain to be 0."""
    sheet = Sheet(8, [2, 3], [Line(1), Line(1, difference=1), Line(1, first=3, second=3), Line(6, constant=2, difference=6),
                              Line(6, constant=2, difference=6), Line(1), Line(1, second=1, difference=1)])
    assert [line_report(sheet, k)[0] for k in range(len(sheet.lines))] == [1, 0, 1, 3, 3, 1, 1]
    add_unsealed("with right checks, of words XOR themselves", sheet.pack(), "certain 0 0 0")


# The comparison itself. All reports above are right, so a comparison that says so of every report would not show in them.

# Kind, width, report's number, weight (of halves in whole bits), chains, N, and the count: whether they agree, by hand.
CLAIMS = {
    "impossible": {(5, 4, 0, 0, 0, 0, 0): True, (5, 4, 0, 0, 0, 0, 1): False, (5, 4, 0, 0, 0, 0, 256): False,
                   (6, 4, 0, 0, 0, 0, 1): False, (1, 4, 0, 0, 0, 0, 256): False},
    "certain": {(1, 4, 1, 0, 0, 0, 256): True, (1, 4, 1, 0, 0, 0, 255): False, (1, 4, 1, 0, 0, 0, 16): False,
                **{(kind, 4, 1, 0, 0, 0, 16): True for kind in (2, 3, 4, 7, 8)},
                **{(kind, 4, 1, 0, 0, 0, count): False for kind in (2, 3, 4, 7, 8) for count in (0, 15, 17)},
                (5, 4, 1, 0, 0, 0, 256): False, (6, 4, 1, 0, 0, 0, 16): False, (9, 4, 1, 0, 0, 0, 256): False},
    "halves": {(5, 4, 2, 0, 0, 0, 256): True, (9, 4, 2, 0, 0, 0, 256): True, (5, 4, 2, 3, 0, 0, 32): True,
               (9, 4, 2, 3, 0, 0, 32): True, (5, 4, 2, 8, 0, 0, 1): True, (5, 4, 2, 9, 0, 0, 0): False,
               **{(5, 4, 2, 3, 0, 0, count): False for count in (0, 31, 33, 16, 64)},
               (1, 4, 2, 0, 0, 0, 256): False, (6, 4, 2, 1, 0, 0, 8): False, (3, 4, 2, 0, 0, 0, 16): False},
    # 16 log2(12) is between 57 and 58, and 64 - w to 64 - w + 3c has to hold it.
    "counted": {**{(6, 4, 3, w, 1, 12, 12): w in (7, 8, 9) for w in range(5, 12)},
                (6, 4, 3, 7, 0, 12, 12): False, (6, 4, 3, 12, 2, 12, 12): True, (6, 4, 3, 13, 2, 12, 12): False,
                (6, 4, 3, 8, 1, 11, 12): False, (6, 4, 3, 8, 1, 12, 13): False, (6, 4, 3, 8, 1, 12, 11): False,
                (5, 4, 3, 8, 1, 12, 12): False, (2, 4, 3, 0, 0, 16, 16): False, (6, 4, 3, 0, 0, 0, 0): False,
                (6, 4, 3, 64, 0, 0, 0): False, (6, 4, 3, 64, 0, 1, 1): True, (6, 4, 3, 63, 0, 1, 1): False,
                # Powers of two meet both bounds.
                (6, 4, 3, 0, 0, 16, 16): True, (6, 4, 3, 1, 0, 16, 16): False, (6, 4, 3, 3, 1, 16, 16): True,
                (6, 4, 3, 4, 1, 16, 16): False, (6, 32, 3, 0, 0, 2**32, 2**32): True,
                (6, 32, 3, 3, 1, 2**32, 2**32): True, (6, 32, 3, 4, 1, 2**32, 2**32): False,
                (6, 32, 3, 480, 0, 4, 4): True, (6, 32, 3, 479, 0, 4, 4): False, (6, 32, 3, 481, 0, 4, 4): False,
                # Just below 2^32, whose sixteenth power is 2^512.
                (6, 32, 3, 1, 1, 2**32 - 4, 2**32 - 4): True, (6, 32, 3, 0, 1, 2**32 - 4, 2**32 - 4): False,
                (6, 32, 3, 1, 0, 2**32 - 4, 2**32 - 4): False},
}


def claims():
    for name, verdicts in CLAIMS.items():
        assert set(verdicts.values()) == {True, False}
        for i, ((kind, n, number, weight, chains, fitting, count), right) in enumerate(verdicts.items()):
            report = (number, 16 * weight if number == 2 else weight, chains, fitting)
            assert agrees(kind, n, report, count) == right, (name, i)
            cases.append(f"claim {name} {i}: {kind} {n} {number} {weight} {chains} {fitting} {count}\n")
            answers.append(f"claim {name} {i}: {'right' if right else 'wrong'}\n")


def wrong_ones():
    """There is no kind 10: no report, which counts as impossible and wrong."""
    name = "every differential of kind 10 and width 2"
    cases.append(f"{name}: 10 2\n")
    answers.append(f"{name}: 64, impossible 64, wrong 64, weight 0, chains 0, N 0, checksum 0\n")


def texts():
    """The lines of all cases, and of their answers."""
    for group in (all_differentials, starred, misreadings, subtractions, shifts, example_1, table_15, four_bits, long_chains,
                  whole_sheets, copies, impossible_copies, apart_by_one_field, refused_sheets, self_xors, claims, wrong_ones):
        group()
    return cases, answers
