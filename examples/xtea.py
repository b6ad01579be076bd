"""A published trail as a sheet: the 27-round weak related-key characteristic of XTEA.

    python3 examples/xtea.py

writes the sheets and unit clauses that are listed at the end of this file beside it.

The trail is Table 12 of Azimi, Ranea, Salmasizadeh, Mohajeri, Aref and Rijmen, "A bit-vector differential model for the
modular addition by a constant and its applications to differential and impossible-differential cryptanalysis" (2022), found
there by the authors' search. The cipher is XTEA of Needham and Wheeler (1997), and a sheet's words are its words. A round takes
a state of two words x, y to y, z by the seven lines

    y << 4,  y >> 5,  their XOR,  that plus y,  the round key,  the XOR of the last two,  z = x plus that

and its round key is a word of the master key plus the round's constant. Even rounds make XTEA's first word anew and odd rounds
its second, so after an odd number of rounds the state is the ciphertext with its words exchanged.

Table 12 gives the differences of the round keys and of the states. Those of the shifts and XORs follow from their operands.
That of y's sum, the fourth line, is not printed; in each round exactly one gives the weight that the table has for the round,
all others give more, and `sum_difference` finds it.

Rounds 3 and 4 add the same constant to the same key word. What the sheets of these two rounds show is told in README.md.
"""
from pathlib import Path

from sheets import ADD, ADD_CONSTANT, SHIFT_LEFT, SHIFT_RIGHT, WIDTH, XOR, Sheet

FOLDER = Path(__file__).resolve().parent

DELTA = 0x9E3779B9

# Table 12: the differences of plaintext, ciphertext and master key. For each round: the difference of the round key; those of
# the state after it; the weight of its two sums of words, in bits.
PLAINTEXT = (0x00000000, 0x00000000)
CIPHERTEXT = (0x80000000, 0x00000000)
MASTER_KEY = (0x00000000, 0x80000000, 0xC0200000, 0x80000000)
ROUNDS = ((0x00000000, (0x00000000, 0x00000000), 0),
          (0x80000000, (0x00000000, 0x80000000), 0),
          (0x80000000, (0x80000000, 0x04000000), 2),
          (0x40200000, (0x04000000, 0x04000000), 4),
          (0x40200000, (0x04000000, 0x80000000), 4),
          (0x80000000, (0x80000000, 0x00000000), 2),
          (0x80000000, (0x00000000, 0x00000000), 0),
          (0x00000000, (0x00000000, 0x00000000), 0),
          (0x00000000, (0x00000000, 0x00000000), 0),
          (0x00000000, (0x00000000, 0x00000000), 0),
          (0x80000000, (0x00000000, 0x80000000), 0),
          (0x80000000, (0x80000000, 0x04000000), 2),
          (0x40200000, (0x04000000, 0x04000000), 4),
          (0x40200000, (0x04000000, 0x80000000), 4),
          (0x80000000, (0x80000000, 0x00000000), 2),
          (0x80000000, (0x00000000, 0x00000000), 0),
          (0x00000000, (0x00000000, 0x00000000), 0),
          (0x00000000, (0x00000000, 0x00000000), 0),
          (0x80000000, (0x00000000, 0x80000000), 0),
          (0x00000000, (0x80000000, 0x84000000), 2),
          (0x40600000, (0x84000000, 0x80000000), 4),
          (0x80000000, (0x80000000, 0x80000000), 2),
          (0x80000000, (0x80000000, 0x84000000), 2),
          (0xC0600000, (0x84000000, 0x80000000), 4),
          (0x00000000, (0x80000000, 0x00000000), 2),
          (0x80000000, (0x00000000, 0x00000000), 0),
          (0x80000000, (0x00000000, 0x80000000), 0))

# A published pair of plaintext and ciphertext of XTEA's 64 rounds, and its key.
KNOWN_KEY = (0x00010203, 0x04050607, 0x08090A0B, 0x0C0D0E0F)
KNOWN_PLAINTEXT = (0x41424344, 0x45464748)
KNOWN_CIPHERTEXT = (0x497DF3D0, 0x72612CB5)


def enciphered(plaintext, key, rounds):
    """XTEA as its designers write it, stopped after so many rounds."""
    first, second = plaintext
    total = 0
    for i in range(rounds):
        if i % 2 == 0:
            first = (first + (((second << 4 ^ second >> 5) + second) ^ (total + key[total & 3]))) % 2**WIDTH
            total = (total + DELTA) % 2**WIDTH
        else:
            second = (second + (((first << 4 ^ first >> 5) + first) ^ (total + key[total >> 11 & 3]))) % 2**WIDTH
    return first, second


def constant(i):
    """The constant of round i."""
    return DELTA * ((i + 1) // 2) % 2**WIDTH


def key_word(i):
    """Which word of the master key round i takes."""
    return constant(i) & 3 if i % 2 == 0 else constant(i) >> 11 & 3


def state_before(i):
    """The differences of the two words that round i takes."""
    return ROUNDS[i - 1][1] if i > 0 else PLAINTEXT


def weight(u, v, w, width=WIDTH):
    """The bits that a sum costs whose operands differ by u and v and which differs by w; None if no pair of words gives it."""
    total = below = 0
    for i in range(width):
        bits = [word >> i & 1 for word in (u, v, w)]
        if below is not None and sum(bits) % 2 != below:
            return None
        below = bits[0] if len(set(bits)) == 1 else None
        total += below is None and i < width - 1
    return total


def sums(u, v, most):
    """All differences of a sum whose operands differ by u and v, of at most so many bits, found from the lowest bit up."""
    found = [0]
    for i in range(WIDTH):
        longer = [w | bit << i for w in found for bit in (0, 1)]
        weights = [weight(u % 2**(i + 1), v % 2**(i + 1), w, i + 1) for w in longer]
        found = [w for w, cost in zip(longer, weights) if cost is not None and cost <= most]
    return found


def sum_difference(i):
    """The difference of y's sum in round i: the one at which the round costs what the table says. All others cost more."""
    x, y = state_before(i)
    round_key, (_, z), cost = ROUNDS[i]
    mixed = (y << 4) % 2**WIDTH ^ y >> 5
    costs = {w: weight(mixed, y, w) + last for w in sums(mixed, y, cost) if (last := weight(x, w ^ round_key, z)) is not None}
    found = [w for w in costs if costs[w] <= cost]
    assert [costs[w] for w in found] == [cost]
    return found[0]


def add_mixing(sheet, y, total):
    """A round's first four lines, on the word y: the last is y's sum, with this difference."""
    differs = sheet.differences
    high = sheet.line(SHIFT_LEFT, (differs[y] << 4) % 2**WIDTH, y, amount=4)
    low = sheet.line(SHIFT_RIGHT, differs[y] >> 5, y, amount=5)
    mixed = sheet.line(XOR, differs[high] ^ differs[low], high, low)
    return sheet.line(ADD, total, mixed, y)


def add_round_key(sheet, i, key, round_key):
    """Round i's key, of a word of the master key, with this difference."""
    return sheet.line(ADD_CONSTANT, round_key, key, constant=constant(i))


def add_new_word(sheet, x, total, round_key, z):
    """A round's last two lines, on the words x, y's sum and the round key: the last is the new word, with this difference."""
    masked = sheet.line(XOR, sheet.differences[total] ^ sheet.differences[round_key], total, round_key)
    return sheet.line(ADD, z, x, masked)


def add_round(sheet, i, x, y, key, total, round_key, z):
    """Round i's lines on the words x and y and a word of the master key, with these differences of y's sum, the round key and
    the new word. The round key, and the new word."""
    total = add_mixing(sheet, y, total)
    round_key = add_round_key(sheet, i, key, round_key)
    return round_key, add_new_word(sheet, x, total, round_key, z)


def trail(rounds):
    """The sheet of these rounds. The inputs are the state before them and the words of the master key that they take."""
    before = state_before(rounds[0])
    keys = sorted({key_word(i) for i in rounds})
    sheet = Sheet(before + tuple(MASTER_KEY[j] for j in keys))
    x, y = 0, 1
    for i in rounds:
        round_key, (kept, made), _ = ROUNDS[i]
        assert sheet.differences[y] == kept
        _, z = add_round(sheet, i, x, y, 2 + keys.index(key_word(i)), sum_difference(i), round_key, made)
        x, y = y, z
    return sheet


def apart():
    """Rounds 0 to 5 on two sheets: of the round keys, whose inputs are the plaintext and the master key, and of all else, whose
    inputs are the plaintext and the round keys."""
    keys = Sheet(PLAINTEXT + MASTER_KEY)
    rounds = Sheet(PLAINTEXT + tuple(round_key for round_key, _, _ in ROUNDS[:6]))
    x, y = 0, 1
    for i, (round_key, (_, made), _) in enumerate(ROUNDS[:6]):
        add_round_key(keys, i, 2 + key_word(i), round_key)
        x, y = y, add_new_word(rounds, x, add_mixing(rounds, y, sum_difference(i)), 2 + i, made)
    return keys, rounds


def both_encryptions():
    """Rounds 3 and 4 of two encryptions on one sheet, all of whose differences are 0. With it, for each of the two rounds, the
    words that hold the XOR of both encryptions' words, and the differences that the table prints for them.

    The inputs are the state before round 3 and word 2 of the master key, of the first encryption and then of the second.
    Fourteen lines for each encryption follow, then seven that XOR the words of both."""
    assert key_word(3) == key_word(4) == 2
    sheet = Sheet((0,) * 6)
    words = []
    for x, y, key in ((0, 1, 2), (3, 4, 5)):
        key_3, z = add_round(sheet, 3, x, y, key, 0, 0, 0)
        key_4, last = add_round(sheet, 4, y, z, key, 0, 0, 0)
        words.append((x, y, key, key_3, z, key_4, last))
    x, y, key, key_3, z, key_4, last = [sheet.line(XOR, 0, one, two) for one, two in zip(*words)]
    printed = {x: ROUNDS[2][1][0], y: ROUNDS[2][1][1], key: MASTER_KEY[2], key_3: ROUNDS[3][0], z: ROUNDS[3][1][1],
               key_4: ROUNDS[4][0], last: ROUNDS[4][1][1]}
    return sheet, [{word: printed[word] for word in taken} for taken in ((x, y, key, key_3, z), (y, key, z, key_4, last))]


def units(words):
    """A unit clause for each bit of these words: bit i of word j is variable 32 j + i + 1."""
    literals = [(WIDTH * j + i + 1) * (1 if value >> i & 1 else -1) for j, value in words.items() for i in range(WIDTH)]
    return "".join(f"{literal} 0\n" for literal in literals)


def check(whole):
    """The sheet of all rounds is XTEA, and what it states at its ends is what the table prints there."""
    assert enciphered(KNOWN_PLAINTEXT, KNOWN_KEY, 64) == KNOWN_CIPHERTEXT
    words = whole.run(KNOWN_PLAINTEXT + KNOWN_KEY)
    y, z = len(words) - 8, len(words) - 1
    assert (words[z], words[y]) == enciphered(KNOWN_PLAINTEXT, KNOWN_KEY, 27)
    assert (whole.differences[z], whole.differences[y]) == CIPHERTEXT


def check_apart(keys, rounds):
    """The two sheets are XTEA's rounds, where the second takes its round keys from the first."""
    round_keys = keys.run(KNOWN_PLAINTEXT + KNOWN_KEY)[6:]
    words = rounds.run(KNOWN_PLAINTEXT + tuple(round_keys))
    assert (words[-7], words[-1]) == enciphered(KNOWN_PLAINTEXT, KNOWN_KEY, 6)


if __name__ == "__main__":
    whole, (keys, rounds) = trail(range(27)), apart()
    check(whole)
    check_apart(keys, rounds)
    pair, printed = both_encryptions()
    for name, sheet in (("xtea27", whole),
                        ("xtea_round3", trail([3])),
                        ("xtea_round4", trail([4])),
                        ("xtea_rounds3_4", trail([3, 4])),
                        ("xtea_pair", pair),
                        ("xtea6_keys", keys),
                        ("xtea6_rounds", rounds)):
        (FOLDER / f"{name}.sheet").write_bytes(sheet.sealed())
        print(f"{name}.sheet: {len(sheet.records)} lines")
    for name, words in zip(("xtea_pair_round3", "xtea_pair_round4"), printed):
        (FOLDER / f"{name}.units").write_text(units(words))
        print(f"{name}.units: {WIDTH * len(words)} clauses")
