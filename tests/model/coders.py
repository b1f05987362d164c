"""The residuals in the body of a file (sections "The sample-adaptive coder", "The block-adaptive coder", "Body and end")."""

from .bits import Bits, Refusal
from .header import header


def places(params):
    """Returns an iterator over all places in encoding order, each as band, row and column."""
    columns, rows, bands = params.sizes
    if not params.depth:
        return ((z, y, x) for z in range(bands) for y in range(rows) for x in range(columns))
    groups = [range(first, min(first + params.depth, bands)) for first in range(0, bands, params.depth)]
    return ((z, y, x) for y in range(rows) for group in groups for x in range(columns) for z in group)


class Statistics:
    """The counter and the accumulator of a band."""

    def __init__(self, params, band):
        self.params = params
        self.first = True
        self.counter = 1 << params.gamma_zero
        constant = params.constant if params.constants is None else params.constants[band]
        self.accumulator = (3 * (1 << constant + 6) - 49) * self.counter // 128

    def parameter(self):
        level = self.accumulator + 49 * self.counter // 128
        fitting = [k for k in range(1, self.params.bits - 1) if self.counter << k <= level]
        return max(fitting) if fitting and 2 * self.counter <= level else 0

    def take(self, number):
        if self.counter < (1 << self.params.gamma_star) - 1:
            self.accumulator += number
            self.counter += 1
        else:
            self.accumulator = (self.accumulator + number + 1) // 2
            self.counter = (self.counter + 1) // 2


def word(params, statistics, bits, place):
    """Takes the next code word, and returns its residual."""
    if statistics.first:
        return bits.take(params.bits)
    k = statistics.parameter()
    zeros = bits.zeros(params.umax)
    if zeros < params.umax:
        number = (zeros << k) + bits.take(k)
        lawful = number < 1 << params.bits
    else:
        number = bits.take(params.bits)
        lawful = number >> k >= params.umax
    if not lawful:
        raise Refusal(f"7 BadCode {place}")
    return number


def sample_body(params, bits):
    bands = {}
    numbers = []
    for place, (z, _, _) in enumerate(places(params)):
        statistics = bands.setdefault(z, Statistics(params, z))
        number = word(params, statistics, bits, place)
        if statistics.first:
            statistics.first = False
        else:
            statistics.take(number)
        numbers.append(number)
    return numbers


class Block:
    """The reader of the coded data set that begins at a block."""

    def __init__(self, params, bits, block):
        self.params = params
        self.bits = bits
        self.block = block
        self.most = (1 << params.bits) - 1

    def checked(self, value):
        if value > self.most:
            raise Refusal(f"8 BadOption {self.block}")
        return value

    def fundamental(self, most):
        zeros = self.bits.zeros(most + 1)
        if zeros > most:
            raise Refusal(f"8 BadOption {self.block}")
        return zeros

    def split(self, k):
        quotients = [self.fundamental(self.most >> k) for _ in range(self.params.size)]
        return [self.checked((quotient << k) + self.bits.take(k)) for quotient in quotients]

    def pair(self):
        number = self.fundamental(2 * self.most * (self.most + 1))
        total = 0
        while (total + 1) * (total + 2) // 2 <= number:
            total += 1
        second = number - total * (total + 1) // 2
        self.checked(second)
        return [self.checked(total - second), second]

    def run(self, left):
        """Takes a run code, and returns the number of its zero blocks."""
        most = max(4, left)
        zeros = self.bits.zeros(most + 1)
        blocks = left if zeros == 4 else zeros + 1 if zeros < 4 else zeros
        if zeros > most or blocks > left:
            raise Refusal(f"9 RunPastSegment {self.block}")
        return blocks

    def identifier_width(self):
        """Returns the number of bits of an identifier; those of the zero block and the second extension have one more."""
        if self.params.restricted:
            return 1 if self.params.bits == 2 else 2
        return 3 if self.params.bits <= 8 else 4

    def read(self, left):
        """Takes the coded data set, and returns its values and the number of its blocks."""
        width = self.identifier_width()
        identifier = self.bits.take(width)
        if identifier == 0 and not self.bits.take(1):
            blocks = self.run(left)
            return [0] * (self.params.size * blocks), blocks
        if identifier == 0:
            return [value for _ in range(self.params.size // 2) for value in self.pair()], 1
        if identifier == (1 << width) - 1:
            return [self.bits.take(self.params.bits) for _ in range(self.params.size)], 1
        return self.split(identifier - 1), 1


def segment_rest(params, count, block):
    """Returns the number of blocks from this one to the end of its segment."""
    place = block % params.reference
    return min(64 - place % 64, params.reference - place, count - block)


def block_body(params, bits):
    count = -(-params.count // params.size)
    numbers = []
    block = 0
    while block < count:
        values, blocks = Block(params, bits, block).read(segment_rest(params, count, block))
        numbers += values
        block += blocks
    return numbers[: params.count]


def least_length(params):
    """Returns the least number of bits of a body."""
    if not params.block:
        return params.count
    count = -(-params.count // params.size)
    interval = -(-params.reference // 64)
    return 3 * (count // params.reference * interval + -(-(count % params.reference) // 64))


def residuals(file):
    """Returns the parameters of a file, and its residuals in encoding order."""
    params = header(file)
    bits = Bits(file)
    bits.at = 8 * params.length
    if bits.left() < least_length(params):
        raise bits.ended()
    numbers = (block_body if params.block else sample_body)(params, bits)
    if bits.left() >= 8 * params.word:
        raise Refusal(f"11 TooLong {bits.left()}")
    if "1" in bits.text[bits.at :]:
        raise Refusal("10 BadFill")
    return params, numbers
