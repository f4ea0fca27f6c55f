"""Tests of sets of packets: trees against lists of all headers, and against netcheck's own patterns."""
import itertools
import random
import re
import unittest

import common
import packets
from support import EXAMPLES, netcheck

# So many of the last bits of a header vary in these tests, so that all headers can be looked at.
BITS = 8
HEADERS = range(1 << BITS)


def some_patterns(source):
    """Some patterns at random, which may overlap."""
    masks = [source.getrandbits(BITS) & source.getrandbits(BITS) for _ in range(source.randrange(6))]
    return [packets.Pattern(source.getrandbits(BITS) & mask, mask) for mask in masks]


def headers_of(patterns):
    return {header for header in HEADERS if any(packets.fits(pattern, header) for pattern in patterns)}


class PacketsTest(unittest.TestCase):
    def test_differences_hold_what_one_has_and_the_other_has_not(self):
        source = random.Random(1)
        for _ in range(300):
            one, other = some_patterns(source), some_patterns(source)
            trees = packets.Trees()
            tree = trees.minus(trees.of(one), trees.of(other))
            found = list(trees.patterns(tree))
            self.assertEqual(headers_of(found), headers_of(one) - headers_of(other))
            self.assertEqual(trees.count(tree), len(found))
            self.assertTrue(all(not headers_of([left]) & headers_of([right]) for left, right in itertools.combinations(found, 2)))

    def test_patterns_of_netcheck_come_again(self):
        for ending in common.ENDINGS:
            lines = netcheck("reach", str(EXAMPLES / "border"), "--from", "border:GigabitEthernet0/0", "--end", ending).text.splitlines()[1:]
            trees = packets.Trees()
            tree = trees.of([packets.pattern_of(line) for line in lines])
            self.assertEqual([packets.line_of(pattern) for pattern in trees.patterns(tree)], lines)

    def test_texts(self):
        line = "cube dst=10.1.1.8&255.255.255.254 proto=6&255 dport=0&65520"
        pattern = packets.pattern_of(line)
        self.assertEqual(packets.line_of(pattern), line)
        for tests, is_in in (("dst=10.1.1.9 proto=6 dport=15", True), ("dst=10.1.1.9 proto=6 dport=16", False),
                             ("dst=10.1.1.10 proto=6", False), ("dst=10.1.1.8 proto=4", False)):
            header = packets.pattern_of("cube " + re.sub(r"=(\S+)", r"=\1&\1", tests)).value
            self.assertEqual(packets.fits(pattern, header), is_in, tests)
        self.assertEqual(packets.words_of(pattern), "--dst 10.1.1.8 --proto 6 --dport 0")
        line = "cube proto=6&255 type=8&248 code=0&255 ack=0&1 rst=1&1"
        self.assertEqual(packets.line_of(packets.pattern_of(line)), line)
        self.assertEqual(packets.words_of(packets.pattern_of(line)), "--dst 0.0.0.0 --proto 6 --type 8 --code 0 --ack 0 --rst 1")
        self.assertEqual(packets.words_of(packets.pattern_of("cube all")), "--dst 0.0.0.0")
        self.assertEqual(packets.line_of(packets.Pattern(0, 0)), "cube all")
        self.assertRaises(common.Failure, packets.pattern_of, "cube colour=1&1")

    def test_order_of_prefixes(self):
        prefixes = ["0.0.0.0/0", "9.0.0.0/8", "10.0.0.0/8", "10.0.0.0/16", "100.0.0.0/8"]
        self.assertEqual(sorted(reversed(prefixes), key=packets.order_of_prefix), prefixes)

    def test_a_bound_on_nodes(self):
        pattern = packets.Pattern(0, (1 << 20) - 1)
        self.assertEqual(packets.Trees(22).of([pattern]), 21)
        self.assertRaisesRegex(common.Failure, "more than 21 nodes", packets.Trees(21).of, [pattern])
