"""The cases so far, and the lines that each must give."""
from collections import Counter

MOST_BODY = 16384
MOST_OUTPUT = 1_048_576  # of a program that `rt check` runs


class Cases:
    def __init__(self):
        self.input, self.lines, self.kinds = bytearray(), [], Counter()

    def add(self, kind, body, *lines):
        assert len(body) <= MOST_BODY
        self.input += kind + len(body).to_bytes(2, "little") + body
        self.lines += lines
        self.kinds[kind.decode()] += 1

    def output(self):
        lines = "".join(line + "\n" for line in self.lines).encode()
        assert len(lines) <= MOST_OUTPUT
        return lines
