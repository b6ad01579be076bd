"""A published trail as a sheet: the 7-round related-key characteristic of LEA-128.

    python3 examples/lea.py

writes lea7.sheet and lea7_printed.sheet beside this file.

The trail is Table 15 of Azimi, Ranea, Salmasizadeh, Mohajeri, Aref and Rijmen, "A bit-vector differential model for the
modular addition by a constant and its applications to differential and impossible-differential cryptanalysis" (2022), found
there by the authors' search. The cipher is LEA-128 of Hong, Lee, Kim, Kwon, Ryu and Lee (WISA 2013), and a sheet's words are
its words:

- the inputs are the four words of the plaintext, then the four of the master key;
- a round of the key schedule adds a rotated constant to each key word and rotates it left by 1, 3, 6 and 11;
- a round of the encryption adds pairs of words, each XORed with a word of the round key, and rotates the sums: left by 9, right
  by 5, right by 3. The fourth word is the first one of before.

Table 15 gives the differences of the round keys and of the states. Those between follow: an XOR's by its operands, a sum's by
the rotation that comes after it.

In the last state the table prints 00080808 as the third word (hexadecimal), and so in the ciphertext. No pair of words gives it:
the sum before the rotation has the operand differences 00000040 and 00040400, and would have to differ by 00404040.
With 00008088, whose sum differs by 00040440, the trail can happen, at the weight of 8 bits that the table gives for the round.
lea7.sheet has 00008088, and lea7_printed.sheet what is printed.
"""
from pathlib import Path

from sheets import ADD, ADD_CONSTANT, ROTATE_LEFT, ROTATE_RIGHT, XOR, Sheet, left, right

FOLDER = Path(__file__).resolve().parent

# LEA-128's key schedule constants, and the rotations of its four key words.
DELTA = (0xC3EFE9DB, 0x44626B02, 0x79E27C8A, 0x78DF30EC)
KEY_ROTATIONS = (1, 3, 6, 11)

# A state's first three words, each of a sum: (state word, key word) twice, and the sum's rotation.
SUMS = (((0, 0), (1, 1), ROTATE_LEFT, 9),
        ((1, 2), (2, 1), ROTATE_RIGHT, 5),
        ((2, 3), (3, 1), ROTATE_RIGHT, 3))

# Table 15: the differences of plaintext and master key, and those of key and state after each round.
PLAINTEXT = (0x4000000C, 0x2040000C, 0x20400004, 0x20400082)
MASTER_KEY = (0x10000000, 0, 0, 0)
ROUND_KEYS = ((0x20000000, 0, 0, 0),
              (0x40000000, 0, 0, 0),
              (0x80000000, 0, 0, 0),
              (0x00000001, 0, 0, 0),
              (0x00000002, 0, 0, 0),
              (0x00000004, 0, 0, 0),
              (0x00000008, 0, 0, 0))
STATES = ((0x80000000, 0x40000000, 0xC0000010, 0x4000000C),
          (0x00000000, 0x80000000, 0x80000000, 0x80000000),
          (0x00000000, 0x00000000, 0x00000000, 0x00000000),
          (0x00000200, 0x00000000, 0x00000000, 0x00000000),
          (0x00040400, 0x00000000, 0x00000000, 0x00000200),
          (0x08080800, 0x00000000, 0x00000040, 0x00040400),
          (0x10101010, 0x00000002, 0x00080808, 0x08080800))
CORRECTED = STATES[:6] + ((0x10101010, 0x00000002, 0x00008088, 0x08080800),)


def key_word(sheet, word, constant, places, difference):
    """A key word of the next round, with this difference."""
    total = sheet.line(ADD_CONSTANT, right(difference, places), word, constant=constant)
    return sheet.line(ROTATE_LEFT, difference, total, amount=places)


def state_word(sheet, pairs, kind, places, difference):
    """A state word of the next round, with this difference, of two pairs of a state word and a key word."""
    first, second = [sheet.line(XOR, sheet.differences[x] ^ sheet.differences[k], x, k) for x, k in pairs]
    before = right(difference, places) if kind == ROTATE_LEFT else left(difference, places)
    total = sheet.line(ADD, before, first, second)
    return sheet.line(kind, difference, total, amount=places)


def trail(states):
    """The sheet of seven rounds with these differences of the states."""
    sheet = Sheet(PLAINTEXT + MASTER_KEY)
    state, key = [0, 1, 2, 3], [4, 5, 6, 7]
    for i in range(7):
        key = [key_word(sheet, key[j], left(DELTA[i % 4], i + j), KEY_ROTATIONS[j], ROUND_KEYS[i][j]) for j in range(4)]
        sums = [state_word(sheet, ((state[x], key[k]), (state[y], key[l])), kind, places, states[i][j])
                for j, ((x, k), (y, l), kind, places) in enumerate(SUMS)]
        assert sheet.differences[state[0]] == states[i][3]
        state = sums + [state[0]]
    return sheet


if __name__ == "__main__":
    for name, states in (("lea7", CORRECTED), ("lea7_printed", STATES)):
        sheet = trail(states)
        (FOLDER / f"{name}.sheet").write_bytes(sheet.sealed())
        print(f"{name}.sheet: {len(sheet.records)} lines")
