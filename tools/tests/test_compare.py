"""Tests of `compare`: pairs of folders with answers worked out by hand, and its packets held against `trace` on both sides."""
import random
import re
import shutil
import tempfile
from pathlib import Path

import packets
from support import EXAMPLES, CompanionTest, folders, netcheck, run


def router(name, *lines):
    return {f"{name}.cfg": "\n".join([f"hostname {name}", *lines]) + "\n"}


def interface(name, address, *lines):
    return "\n".join([f"interface {name}", f" ip address {address} 255.255.255.0", *lines])


def without(value, length, rest=""):
    """The tests of all addresses but those that have the first `length` bits of one, sorted as netcheck has them."""
    patterns = []
    for bit in range(length):
        mask = (1 << 32) - (1 << 31 - bit)
        patterns.append(((value ^ 1 << 31 - bit) & mask, mask))
    return [f"  cube dst={packets.text_of('dst', found)}&{packets.text_of('dst', mask)}{rest}" for found, mask in sorted(patterns)]


# A subnet behind a router is shut down.
SUBNET = interface("GigabitEthernet0/1", "10.1.0.1")
SHUT = {
    "before": {**router("R1", interface("GigabitEthernet0/0", "10.0.0.1"), "ip route 10.1.0.0 255.255.0.0 10.0.0.2"),
               **router("R2", interface("GigabitEthernet0/0", "10.0.0.2"), SUBNET)},
    "after": {**router("R1", interface("GigabitEthernet0/0", "10.0.0.1"), "ip route 10.1.0.0 255.255.0.0 10.0.0.2"),
              **router("R2", interface("GigabitEthernet0/0", "10.0.0.2"), SUBNET, " shutdown")},
}
SHUT_TEXT = """
before: BEFORE, 2 routers, 4 routes
after: AFTER, 2 routers, 3 routes
places: R1, R2

router R2
  goes     10.1.0.0/24 connected 0/0 dev GigabitEthernet0/1

from each place: accepted before and not after: 1 pattern
  cube dst=10.1.0.1&255.255.255.255
    --dst 10.1.0.1: before accepted, after no-route

from each place: delivered before and not after: 8 patterns
  cube dst=10.1.0.0&255.255.255.255
    --dst 10.1.0.0: before delivered, after no-route
  cube dst=10.1.0.2&255.255.255.254
    --dst 10.1.0.2: before delivered, after no-route
  cube dst=10.1.0.4&255.255.255.252
    --dst 10.1.0.4: before delivered, after no-route
  cube dst=10.1.0.8&255.255.255.248
    --dst 10.1.0.8: before delivered, after no-route
  cube dst=10.1.0.16&255.255.255.240
    --dst 10.1.0.16: before delivered, after no-route
  cube dst=10.1.0.32&255.255.255.224
    --dst 10.1.0.32: before delivered, after no-route
  cube dst=10.1.0.64&255.255.255.192
    --dst 10.1.0.64: before delivered, after no-route
  cube dst=10.1.0.128&255.255.255.128
    --dst 10.1.0.128: before delivered, after no-route

from each place: no-route after and not before: 1 pattern
  cube dst=10.1.0.0&255.255.255.0
    --dst 10.1.0.0: before delivered, after no-route
"""

# A list denies telnet where packets enter; what the router sends itself doesn't change.
GUARDED = interface("GigabitEthernet0/0", "10.0.0.1", " ip access-group 101 in")
TELNET = {
    "before": router("R1", GUARDED, "access-list 101 permit ip any any"),
    "after": router("R1", GUARDED, "access-list 101 deny tcp any any eq telnet", "access-list 101 permit ip any any"),
}
TELNET_WORDS = ("--from", "R1:GigabitEthernet0/0", "--from", "R1", "--patterns", "2")
TELNET_TEXT = """
before: BEFORE, 1 router, 1 route
after: AFTER, 1 router, 1 route
places: R1:GigabitEthernet0/0, R1

from R1:GigabitEthernet0/0: accepted before and not after: 1 pattern
  cube dst=10.0.0.1&255.255.255.255 proto=6&255 dport=23&65535
    --dst 10.0.0.1 --proto 6 --dport 23: before accepted, after denied-in

from R1:GigabitEthernet0/0: delivered before and not after: 8 patterns
  cube dst=10.0.0.0&255.255.255.255 proto=6&255 dport=23&65535
    --dst 10.0.0.0 --proto 6 --dport 23: before delivered, after denied-in
  cube dst=10.0.0.2&255.255.255.254 proto=6&255 dport=23&65535
    --dst 10.0.0.2 --proto 6 --dport 23: before delivered, after denied-in
  and 6 more (--patterns N writes N)

from R1:GigabitEthernet0/0: denied-in after and not before: 1 pattern
  cube proto=6&255 dport=23&65535
    --dst 0.0.0.0 --proto 6 --dport 23: before no-route, after denied-in

from R1:GigabitEthernet0/0: no-route before and not after: 24 patterns
  cube dst=0.0.0.0&248.0.0.0 proto=6&255 dport=23&65535
    --dst 0.0.0.0 --proto 6 --dport 23: before no-route, after denied-in
  cube dst=8.0.0.0&254.0.0.0 proto=6&255 dport=23&65535
    --dst 8.0.0.0 --proto 6 --dport 23: before no-route, after denied-in
  and 22 more (--patterns N writes N)
"""

# The gateway of a default route comes, and has no route itself.
ALONE = router("R1", interface("GigabitEthernet0/0", "10.0.0.1"), "ip route 0.0.0.0 0.0.0.0 10.0.0.2")
COMES = {"before": ALONE, "after": {**ALONE, **router("R2", interface("GigabitEthernet0/0", "10.0.0.2"))}}
COMES_WORDS = ("--patterns", "1", "--interfaces")
COMES_TEXT = """
before: BEFORE, 1 router, 2 routes
after: AFTER, 2 routers, 3 routes
places: R1, R1:GigabitEthernet0/0

router R2 comes, with 1 route

from each place: accepted after and not before: 1 pattern
  cube dst=10.0.0.2&255.255.255.255
    --dst 10.0.0.2: before delivered, after accepted

from each place: delivered before and not after: 1 pattern
  cube dst=10.0.0.2&255.255.255.255
    --dst 10.0.0.2: before delivered, after accepted

from each place: exits before and not after: 24 patterns
  cube dst=0.0.0.0&248.0.0.0
    --dst 0.0.0.0: before exits, after no-route
  and 23 more (--patterns N writes N)

from each place: no-route after and not before: 24 patterns
  cube dst=0.0.0.0&248.0.0.0
    --dst 0.0.0.0: before exits, after no-route
  and 23 more (--patterns N writes N)
"""

# A second gateway, which isn't there: some packets of the same kind get lost.
FORKED = (interface("GigabitEthernet0/0", "10.0.1.1"), interface("GigabitEthernet0/1", "10.0.3.1"), "ip route 9.9.9.0 255.255.255.0 10.0.1.2")
SERVER = router("R2", interface("GigabitEthernet0/0", "10.0.1.2"), interface("GigabitEthernet0/1", "9.9.9.1"))
FORK = {"before": {**router("R1", *FORKED), **SERVER}, "after": {**router("R1", *FORKED, "ip route 9.9.9.0 255.255.255.0 10.0.3.3"), **SERVER}}
FORK_TEXT = """
before: BEFORE, 2 routers, 5 routes
after: AFTER, 2 routers, 5 routes
places: R1, R2

router R1
  before   9.9.9.0/24 static 1/0 via 10.0.1.2
  after    9.9.9.0/24 static 1/0 via 10.0.1.2 via 10.0.3.3

from R1: exits after and not before: 1 pattern
  cube dst=9.9.9.0&255.255.255.0
    --dst 9.9.9.0: before delivered, after delivered and exits
"""

# An outbound list comes: what enters elsewhere doesn't get out any more.
OFFICE = interface("GigabitEthernet0/0", "10.0.0.1")
OUT = {"before": router("R1", OFFICE, interface("GigabitEthernet0/1", "10.1.0.1"), "access-list 1 deny any"),
       "after": router("R1", OFFICE, interface("GigabitEthernet0/1", "10.1.0.1", " ip access-group 1 out"), "access-list 1 deny any")}
OUT_WORDS = ("--from", "R1:GigabitEthernet0/0", "--from", "R1", "--patterns", "1")
OUT_TEXT = """
before: BEFORE, 1 router, 2 routes
after: AFTER, 1 router, 2 routes
places: R1:GigabitEthernet0/0, R1

from R1:GigabitEthernet0/0: delivered before and not after: 8 patterns
  cube dst=10.1.0.0&255.255.255.255
    --dst 10.1.0.0: before delivered, after denied-out
  and 7 more (--patterns N writes N)

from R1:GigabitEthernet0/0: denied-out after and not before: 8 patterns
  cube dst=10.1.0.0&255.255.255.255
    --dst 10.1.0.0: before delivered, after denied-out
  and 7 more (--patterns N writes N)
"""

# A loopback with a wide mask is shut down.
WIDE = interface("Loopback0", "9.9.9.9")
LOOPBACK = {"before": router("R1", WIDE), "after": router("R1", WIDE, " shutdown")}
LOOPBACK_WORDS = ("--patterns", "3")
LOOPBACK_TEXT = """
before: BEFORE, 1 router, 1 route
after: AFTER, 1 router, 0 routes
places: R1

router R1
  goes     9.9.9.0/24 connected 0/0 dev Loopback0

from R1: accepted before and not after: 1 pattern
  cube dst=9.9.9.9&255.255.255.255
    --dst 9.9.9.9: before accepted, after no-route

from R1: no-route after and not before: 1 pattern
  cube dst=9.9.9.0&255.255.255.0
    --dst 9.9.9.0: before unreachable, after no-route

from R1: unreachable before and not after: 8 patterns
  cube dst=9.9.9.0&255.255.255.248
    --dst 9.9.9.0: before unreachable, after no-route
  cube dst=9.9.9.8&255.255.255.255
    --dst 9.9.9.8: before unreachable, after no-route
  cube dst=9.9.9.10&255.255.255.254
    --dst 9.9.9.10: before unreachable, after no-route
  and 5 more (--patterns N writes N)
"""

# A circle ends: the addresses of 10.9.0.0/16 that have no subnet at the data centre are dropped there.
MENDED_TEXT = """
before: BEFORE, 3 routers, 14 routes
after: AFTER, 3 routers, 15 routes
places: core1, dc1, edge1

router dc1
  comes    10.9.0.0/16 static 254/0 null

from each place: null-routed after and not before: 14 patterns
  cube dst=10.9.0.0&255.255.255.0
    --dst 10.9.0.0: before loop, after null-routed
  cube dst=10.9.2.0&255.255.254.0
    --dst 10.9.2.0: before loop, after null-routed
  and 12 more (--patterns N writes N)
"""
PAIRS = (
    (SHUT, (), SHUT_TEXT), (TELNET, TELNET_WORDS, TELNET_TEXT), (COMES, COMES_WORDS, COMES_TEXT), (OUT, OUT_WORDS, OUT_TEXT),
    (LOOPBACK, LOOPBACK_WORDS, LOOPBACK_TEXT), (FORK, (), FORK_TEXT))


def shown(text, before, after):
    """An answer with the names of the folders out of it."""
    return "\n" + text.replace(before, "BEFORE").replace(after, "AFTER")


def end_of(folder, place, words):
    """How the first walk of a packet ends."""
    return netcheck("trace", folder, "--from", place, *words.split()).text.splitlines()[-1][len("end "):]


def changes_in(text):
    """The changes of an answer: places, ending, side, and the pattern and the packet of each."""
    places = re.search(r"^places: (.*)$", text, re.M)[1].split(", ")
    for head in re.finditer(r"^from (.*): (\S+) (before|after) and not .*\n((?:  .*\n)*)", text, re.M):
        packet = r"  (cube .*)\n    (.*): before (.*), after (.*)\n"
        yield places if head[1] == "each place" else head[1].split(", "), head[2], head[3], re.findall(packet, head[4])


class CompareTest(CompanionTest):
    def test_pairs_worked_out_by_hand(self):
        for pair, words, text in PAIRS:
            with self.subTest(text), folders(pair["before"], pair["after"]) as (before, after):
                done = run("compare", before, after, *words)
                self.assertEqual((shown(done.text, before, after), done.fault, done.status), (text, "", 1))

    def test_a_circle_ends(self):
        before, after = str(EXAMPLES / "site"), str(EXAMPLES / "mended")
        done = run("compare", before, after, "--patterns", "2")
        self.assertEqual((shown(done.text, before, after), done.status), (MENDED_TEXT, 1))

    def test_nothing(self):
        folder = str(EXAMPLES / "site")
        done = run("compare", folder, folder)
        self.assertEqual((done.text.splitlines()[-1], done.fault, done.status), ("nothing changes", "", 0))

    def test_a_list_of_patterns_is_whole(self):
        with folders(TELNET["before"], TELNET["after"]) as pair:
            text = run("compare", *pair, *TELNET_WORDS[:-1], "100").text
        self.assertEqual(re.findall("  cube .*", text)[-24:], without(10 << 24, 24, " proto=6&255 dport=23&65535"))

    def test_packets_end_so(self):
        """Each packet that is named ends before and after as it says: in the ending of its list on the one side, and not on the other."""
        for pair, words, _ in PAIRS:
            with folders(pair["before"], pair["after"]) as sides:
                for places, ending, side, found in changes_in(run("compare", *sides, *words).text):
                    self.assertTrue(found)
                    for place in places:
                        self.assert_ends(sides, place, ending, side, found)

    def assert_ends(self, sides, place, ending, side, found):
        for _, packet, before, after in found:
            ends = dict(zip(("before", "after"), (before.split(" and "), after.split(" and "))))
            other = {"before": "after", "after": "before"}[side]
            self.assertIn(ending, ends[side])
            self.assertNotIn(ending, ends[other])
            for folder, name in zip(sides, ends):
                self.assertIn(end_of(folder, place, packet), ends[name])

    def test_other_packets_do_not_change(self):
        """Of packets at random those that end otherwise, and no others, fit a pattern of the ending before and one of that after."""
        source = random.Random(2)
        for pair, words, _ in PAIRS:
            if pair is FORK:  # where one walk doesn't tell all endings
                continue
            with folders(pair["before"], pair["after"]) as sides:
                changes = list(changes_in(run("compare", *sides, *words, "--patterns", "1000").text))
                places = sorted({place for change in changes for place in change[0]})
                for place in places:
                    self.assert_covered(sides, place, changes, source)

    def assert_covered(self, sides, place, changes, source):
        for _ in range(10):
            dst = source.choice([f"10.{source.randrange(2)}.0.{source.randrange(256)}", f"{source.randrange(256)}.2.3.4"])
            words = f"--dst {dst} --proto {source.choice([6, 17])} --dport {source.choice([23, 24])}"
            fields = {"dst": dst, "proto": words.split()[3], "dport": words.split()[5]}
            header = packets.pattern_of("cube " + " ".join(f"{field}={value}&{value}" for field, value in fields.items())).value
            ends = {name: end_of(folder, place, words) for folder, name in zip(sides, ("before", "after"))}
            told = {(side, ending) for found, ending, side, patterns in changes if place in found
                    if any(packets.fits(packets.pattern_of(line), header) for line, *_ in patterns)}
            self.assertEqual(told, set(ends.items()) if len(set(ends.values())) > 1 else set(), words)

    def test_a_place_of_one_side(self):
        with folders(COMES["before"], COMES["after"]) as pair:
            self.assertIn("\nfrom R2: there is such a place after alone\n", run("compare", *pair, "--from", "R2").text)
            self.assertIn("\nrouter R2 goes, with 1 route\n", run("compare", *reversed(pair)).text)
            self.assert_fails(run("compare", *pair, "--from", "R9"), "neither folder has a router or interface R9")

    def test_no_answer(self):
        site = str(EXAMPLES / "site")
        self.assert_fails(run("compare", site, str(EXAMPLES / "mistyped")), "edge1.cfg:7: a value is wrong or out of range")
        self.assert_fails(run("compare", str(EXAMPLES / "circle"), site), "the tables repeat and never settle")
        self.assert_fails(run("compare", site, site, "--rounds", "1"), "the tables still changed in the last round")
        self.assert_fails(run("compare", site, site, "--nodes", "16"), "the sets of this query need more nodes")
        self.assert_fails(run("compare", site, "no such folder"), "can't be read")
        self.assert_fails(run("compare", site), "required: AFTER")
        self.assert_fails(run("compare", site, site, "--from", "a b"), "these words aren't taken")

    def test_a_folder_that_begins_with_a_dash(self):
        with tempfile.TemporaryDirectory() as root:
            shutil.copytree(EXAMPLES / "base", Path(root, "-x"))
            done = run("compare", "--", "-x", "-x", directory=root)
        self.assertEqual((done.status, done.fault), (0, ""))
