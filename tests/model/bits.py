"""A reader of bits, and the refusal of a file."""


class Refusal(Exception):
    """The refusal of a file, with the line that the program has to print, without the name of the program."""


class Bits:
    """The bits of bytes, read from the front, the most significant of a byte first."""

    def __init__(self, file):
        self.text = "".join(f"{byte:08b}" for byte in file)
        self.at = 0

    def left(self):
        return len(self.text) - self.at

    def ended(self):
        return Refusal(f"6 Truncated {len(self.text)}")

    def take(self, width):
        if self.left() < width:
            raise self.ended()
        self.at += width
        return int(self.text[self.at - width : self.at] or "0", 2)

    def zeros(self, limit):
        """Takes zeros and the one after them, or as many zeros as the limit, and returns the number of zeros."""
        one = self.text.find("1", self.at, self.at + limit)
        if one >= 0:
            zeros = one - self.at
            self.at = one + 1
            return zeros
        if self.left() < limit:
            raise self.ended()
        self.at += limit
        return limit
