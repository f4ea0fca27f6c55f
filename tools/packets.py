"""Sets of packets as reduced decision trees over the bits of a header: netcheck's patterns in, and what one set has beside another as patterns out.

A tree has at most one node for each different set of what is left of a header, and the difference of two trees at most one for each pair of
their nodes. So taking one list of patterns from another doesn't grow with the pieces that patterns are cut into, and how many patterns are
left is known before any is written out.
"""
from collections import namedtuple

from common import ADDRESSES, FIELDS, Failure

NOTHING, EVERYTHING = 0, 1
BITS = sum(FIELDS.values())
# How many nodes may be made for one difference: some hundred megabytes.
NODES = 1_000_000

# A header and a mask, each as one number with the fields in their order. A packet fits where its header and the mask give the value: the value is
# that of the example, whose free bits are 0.
Pattern = namedtuple("Pattern", "value mask")


def shifts():
    """Each field with its bits and how many bits stand behind it."""
    behind = BITS
    for name, bits in FIELDS.items():
        behind -= bits
        yield name, bits, behind


# ---- texts


def number_of(text):
    """A number or an address as a number."""
    number = 0
    for part in text.split("."):
        number = number << 8 | int(part)
    return number


def text_of(field, number):
    if field not in ADDRESSES:
        return str(number)
    return ".".join(str(number >> shift & 255) for shift in (24, 16, 8, 0))


def order_of_prefix(prefix):
    """Where a prefix stands among others, as netcheck has them: by address, then by length."""
    address, length = prefix.split("/")
    return number_of(address), int(length)


def pattern_of(line):
    """The pattern that a line 'cube ..' writes."""
    tests = dict(test.split("=") for test in line.split(" ")[1:] if test != "all")
    value = mask = 0
    for field, bits, behind in shifts():
        if field in tests:
            numbers = [number_of(part) for part in tests.pop(field).split("&")]
            value |= numbers[0] << behind
            mask |= numbers[1] << behind
    if tests:
        raise Failure(f"the companions don't know the field {', '.join(tests)} of a header")
    return Pattern(value, mask)


def line_of(pattern):
    """The line 'cube ..' of a pattern."""
    tests = []
    for field, bits, behind in shifts():
        value, mask = (number >> behind & (1 << bits) - 1 for number in pattern)
        if mask:
            tests.append(f"{field}={text_of(field, value)}&{text_of(field, mask)}")
    return " ".join(["cube", *(tests or ["all"])])


def words_of(pattern):
    """The words with which `trace` takes the example of a pattern, whose free bits are 0. What they don't name is 0 for it too."""
    parts = ((field, (number >> behind & (1 << bits) - 1 for number in pattern)) for field, bits, behind in shifts())
    return " ".join(f"--{field} {text_of(field, value)}" for field, (value, mask) in parts if mask or field == "dst")


def fits(pattern, header):
    return header & pattern.mask == pattern.value


# ---- trees


class Trees:
    """A table of nodes. A node has a bit, counted from the last one of a header, and what is left where that bit is 0 and where it is 1."""

    def __init__(self, most=NODES):
        self.most = most
        self.nodes = [(-1, NOTHING, NOTHING), (-1, EVERYTHING, EVERYTHING)]
        self.numbers = {}
        self.differences = {}
        self.counts = {NOTHING: 0, EVERYTHING: 1}

    def node(self, bit, low, high):
        if low == high:
            return low
        number = self.numbers.setdefault((bit, low, high), len(self.nodes))
        if number == len(self.nodes):
            if number >= self.most:
                raise Failure(f"what the two sides differ in needs more than {self.most:,} nodes")
            self.nodes.append((bit, low, high))
        return number

    def of(self, patterns, left=BITS):
        """The tree of the headers that fit some pattern, by the last `left` bits."""
        rest = (1 << left) - 1
        if not patterns or not all(pattern.mask & rest for pattern in patterns):
            return EVERYTHING if patterns else NOTHING
        bit = max(pattern.mask & rest for pattern in patterns).bit_length() - 1
        low = [pattern for pattern in patterns if not pattern.value >> bit & 1]
        high = [pattern for pattern in patterns if pattern.value >> bit & 1 or not pattern.mask >> bit & 1]
        return self.node(bit, self.of(low, bit), self.of(high, bit))

    def branches(self, tree, bit):
        """What is left of a tree where a bit is 0 and where it is 1."""
        tested, low, high = self.nodes[tree]
        return (low, high) if tested == bit else (tree, tree)

    def minus(self, tree, other):
        """The tree of the headers that one tree has and another hasn't."""
        if tree == other or tree == NOTHING or other == EVERYTHING:
            return NOTHING
        if other == NOTHING:
            return tree
        found = self.differences.get((tree, other))
        if found is None:
            bit = max(self.nodes[tree][0], self.nodes[other][0])
            parts = zip(self.branches(tree, bit), self.branches(other, bit))
            found = self.differences[tree, other] = self.node(bit, *(self.minus(*part) for part in parts))
        return found

    def count(self, tree):
        """How many patterns a tree has."""
        if tree not in self.counts:
            _, low, high = self.nodes[tree]
            self.counts[tree] = self.count(low) + self.count(high)
        return self.counts[tree]

    def patterns(self, tree, value=0, mask=0):
        """The patterns of a tree, no two of which a header fits, in netcheck's order."""
        if tree == EVERYTHING:
            yield Pattern(value, mask)
        elif tree != NOTHING:
            bit, low, high = self.nodes[tree]
            yield from self.patterns(low, value, mask | 1 << bit)
            yield from self.patterns(high, value | 1 << bit, mask | 1 << bit)
