"""Sheets of 32-bit words, for the examples."""
import struct

# Blocks of 512 bytes, 31 records of 16 bytes in each block of lines.
BLOCK, RECORDS = 512, 31
LINE = struct.Struct("<BBHHHII")
WIDTH = 32

# The kinds of lines that the examples have.
XOR, ROTATE_LEFT, ROTATE_RIGHT, ADD, ADD_CONSTANT, SHIFT_LEFT, SHIFT_RIGHT = 1, 3, 4, 5, 6, 7, 8


def left(word, places):
    places %= WIDTH
    return (word << places | word >> (WIDTH - places)) % 2**WIDTH


def right(word, places):
    return left(word, WIDTH - places)


# The word that a line of each kind makes, of its operands, amount and constant.
MAKES = {XOR: lambda x, y, amount, constant: x ^ y,
         ROTATE_LEFT: lambda x, y, amount, constant: left(x, amount),
         ROTATE_RIGHT: lambda x, y, amount, constant: right(x, amount),
         ADD: lambda x, y, amount, constant: (x + y) % 2**WIDTH,
         ADD_CONSTANT: lambda x, y, amount, constant: (x + constant) % 2**WIDTH,
         SHIFT_LEFT: lambda x, y, amount, constant: (x << amount) % 2**WIDTH,
         SHIFT_RIGHT: lambda x, y, amount, constant: x >> amount}


class Sheet:
    """Words with their differences, and the lines that make all but the inputs."""

    def __init__(self, inputs):
        self.inputs, self.differences, self.records = inputs, list(inputs), []

    def line(self, kind, difference, first, second=0, amount=0, constant=0):
        """The word that one more line makes."""
        self.records.append(LINE.pack(kind, amount, first, second, 0, constant, difference))
        self.differences.append(difference)
        return len(self.differences) - 1

    def run(self, start):
        """All words of the run from these inputs."""
        words = list(start)
        for record in self.records:
            kind, amount, first, second, _, constant, _ = LINE.unpack(record)
            words.append(MAKES[kind](words[first], words[second], amount, constant))
        return words

    def sealed(self):
        """The sheet's bytes, with every block's check: the sum of its other numbers and its index."""
        header = struct.pack(f"<4sBBH{len(self.inputs)}I", b"ARXT", WIDTH, len(self.inputs), len(self.records), *self.inputs)
        blocks = [header] + [b"".join(self.records[i:i + RECORDS]) for i in range(0, len(self.records), RECORDS)]
        padded = [block.ljust(BLOCK - 4, b"\0") for block in blocks]
        checks = [(sum(struct.unpack("<127I", block)) + index) % 2**32 for index, block in enumerate(padded)]
        return b"".join(block + struct.pack("<I", check) for block, check in zip(padded, checks))
