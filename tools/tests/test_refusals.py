"""Tests of `refusals`. What is expected was worked out by hand from docs/LINES.md."""
import re
from pathlib import Path

import common
from support import EXAMPLES, CompanionTest, fake_program, folders, netcheck, run

REASONS = 12
LIMIT = 1_048_576


def joined(*lines):
    return "\n".join(lines) + "\n"


def rows(text):
    """Lines that are parted by '; ', of which '>' indents one."""
    return joined(*(line.replace(">", "", 1) if line.startswith(">") else line for line in text.split("; ")))


def interfaces(count, kind="Loopback"):
    return [f"interface {kind}{number}" for number in range(count)]


# Twenty refusals of all twelve kinds. Behind each line that is refused stands its number.
ALL_KINDS = {
    "a.cfg": joined(
        "hostname a",
        "interface GigabitEthernet0/0",
        " ip address 10.0.0.1 255.0.255.0",  # 3
        " standby 1 ip 10.0.0.254",  # 2
        "intreface GigabitEthernet0/1",  # 1, and with it two lines that aren't looked at
        " ip address 10.1.0.1 255.255.255.0",
        " shutdown",
        "interface GigabitEthernet0/2",
        " hostname b",  # 4
        "ip address 10.2.0.1 255.255.255.0",  # 4
        "! a remark closes no block",
        "router ospf 70000",  # 3
        " network 10.0.0.0 0.255.255.255 area 0",
        " summary-address 10.0.0.0 255.0.0.0",  # 2
        "route-map M permit 10",
        " match ip address prefix-list P",  # 9
        " description " + 4100 * "x",  # 5
        "banner motd #",  # 7
        "text of a banner without an end",  # 1
    ),
    "b.cfg": joined("hostname a", "access-list 3000 permit any"),  # 8, 3
    "c.cfg": joined("ip nat inside source list 1 interface Serial0"),  # 6, 2
    "d.cfg": joined("hostname d", *interfaces(258)),  # 12 twice
    "e.cfg": joined("hostname e", "frobnicate", *["version 15"] * 100_000),  # 11, 1, and cut in the v of a line
    **{f"f{number:03}.cfg": f"hostname f{number}\n" for number in range(508)},  # with those above 513 files: 10
}
FOUND = """\
folder 10, a.cfg:3 3, a.cfg:4 2, a.cfg:5 1, a.cfg:9 4, a.cfg:10 4, a.cfg:12 3, a.cfg:14 2, a.cfg:16 9, a.cfg:17 5, a.cfg:18 7, a.cfg:19 1, \
b.cfg:1 8, b.cfg:2 3, c.cfg 6, c.cfg:1 2, d.cfg:258 12, d.cfg:259 12, e.cfg 11, e.cfg:2 1"""

PARTS = (
    "\n20 refusals\n  3 of number 1: no line that is known begins with these words; see docs/LINES.md\n",
    "a.cfg:5: 1, no line that is known begins with these words\n    intreface GigabitEthernet0/1\n    (not looked at: 2 lines below it)\n",
    "e.cfg: 11, the file has more than 1,048,576 bytes\n    (looked at: its first 95,325 lines, which may lack what stands behind them)\n",
)

# A file or several, and what is refused of them: each is about what stays behind a line that is taken out.
CASES = {
    "the block of an indented line goes on": (
        rows("hostname a; interface Serial0; > mpls ip; > ip address 1.1.1.1 255.0.255.0"),
        "a.cfg:3 2, a.cfg:4 3"),
    "a second process opens the block of the first": (
        rows("hostname a; router ospf 1; router ospf 2; > network 1.1.1.1 0.0.0.0 area 0; > neighbor 1.1.1.2"),
        "a.cfg:3 2, a.cfg:5 2"),
    "a wrong process gives way to the right one below": (
        rows("hostname a; router bgp 0; > bgp router-id 1.1.1.1; router bgp 7; > bgp router-id x"),
        "a.cfg:2 3, a.cfg:5 3"),
    "a list whose only line is wrong is no missing list": (
        rows("hostname a; ip prefix-list P permit 10.0.0.0/33; route-map M permit 10; > match ip address prefix-list P"),
        "a.cfg:2 3"),
    "nor is a standard list, a community list or a route map": (
        rows("hostname a; access-list 5 permit x; ip community-list 7 permit x; route-map R permit x; "
             "route-map M permit 10; > match ip address 5; > match community 7; router ospf 1; "
             "> redistribute static route-map R"),
        "a.cfg:2 3, a.cfg:3 3, a.cfg:4 3"),
    "an extended list stays extended": (
        rows("hostname a; access-list 101 permit tcp any any dscp 5; access-list 101 permit tcp any any eq 70000"),
        "a.cfg:2 2, a.cfg:3 3"),
    "a list of the other kind": (
        rows("hostname a; access-list 5 permit any; ip access-list extended 5; > permit tcp any any; > permit tcp any"),
        "a.cfg:3 3, a.cfg:5 3"),
    "of lines that replace each other the last names alone": (
        rows("hostname a; router bgp 1; > redistribute static route-map A; > neighbor 1.1.1.1 route-map B in; "
             "> redistribute static route-map C; > neighbor 1.1.1.1 route-map D in; > network 1.0.0.0 mask 0.0.0.1"),
        "a.cfg:5 9, a.cfg:6 9, a.cfg:7 3"),
    "a name that has two lines is missed in both": (
        rows("hostname a; route-map M permit 10; > match community X; route-map M permit 20; > match community X"),
        "a.cfg:3 9, a.cfg:5 9"),
    "a wrong host name is no missing one": (rows("hostname a!; frobnicate"), "a.cfg:1 3, a.cfg:2 1"),
    "a second host name leaves the first": ({"a.cfg": rows("hostname a; hostname b"), "b.cfg": "hostname b\n"}, "a.cfg:2 3"),
    "a wrong one in front of another": (rows("hostname a!; hostname b"), "a.cfg:1 3"),
    "three files of one name": (
        {"a.cfg": "hostname x\n", "b.cfg": "hostname x\n", "c.cfg": "!\nhostname x"},
        "b.cfg:1 8, c.cfg:2 8"),
    "an empty file": ("", "a.cfg 6"),
    "a file of two lines without end": ("!\nfrobnicate", "a.cfg 6, a.cfg:2 1"),
    "line ends of Windows": ("hostname a\r\nfrobnicate\r\ninterface Serial0\r\n ip nat\r\n", "a.cfg:2 1, a.cfg:4 2"),
    "a route map with line ends of Windows is no missing one": (
        "hostname a\r\nroute-map M\r\nrouter ospf 1\r\n redistribute static route-map M\r\nfrob\r\n\r\n x\r\n",
        "a.cfg:2 3, a.cfg:5 1"),
    "a long line behind a banner": (
        joined("hostname a", "banner motd #x#", "x" * 5000, " frobnicate", "x"),
        "a.cfg:3 5, a.cfg:5 1"),
    "an interface too many": (
        joined("hostname a", *interfaces(257, "Serial"), " ip address 1.1.1.1 x"),
        "a.cfg:258 12, a.cfg:259 3"),
    "a long line in a banner": (
        joined("hostname a", "banner motd !", "x" * 5000, "frobnicate", "!", "x"),
        "a.cfg:3 5, a.cfg:6 1"),
    "a long line that ends a banner": (joined("hostname a", "banner motd ^C", "x" * 5000 + "^C", "x"), "a.cfg:3 5, a.cfg:4 1"),
    "a long line that begins one": (
        joined("hostname a", "banner motd #" + "x" * 5000, "frobnicate", "#", "x"),
        "a.cfg:2 5, a.cfg:5 1"),
    "a long remark closes no block": (
        joined("hostname a", "interface Serial0", "!" * 5000, " ip address 1.1.1.1 x"),
        "a.cfg:3 5, a.cfg:4 3"),
    "a long line that opens a block": (
        joined("hostname a", "interface Serial0" + " " * 5000, " ip address 1.1.1.1 x"),
        "a.cfg:2 5, a.cfg:3 3"),
    "an interface too many of a type without address": (
        joined("hostname a", *interfaces(256), "interface Tunnel0", " shutdown", " ip nat inside"),
        "a.cfg:258 12, a.cfg:260 2"),
    "a file without room for a host name": (
        {"a.cfg": b"!" * 4000 + b"\n" * (LIMIT - 4000), "b.cfg": "x\nhostname b\n"},
        "a.cfg 6, b.cfg:1 1"),
    "bytes that are no text": (
        {"a.cfg": bytes(range(256)), "b.cfg": b"hostname b\n\xff\xfe"},
        "a.cfg 6, a.cfg:1 1, a.cfg:2 1, b.cfg:2 1"),
    "a file name like a place": ({"x:7: 3\n.cfg": "hostname x\nfrobnicate\n"}, "x:7: 3 .cfg:2 1"),
}


def places(text):
    """The places and numbers of a report."""
    return ", ".join(f"{place} {number}" for place, number in re.findall(r"^(\S.*?): (\d+), ", text, re.M))


class RefusalsTest(CompanionTest):
    def test_twenty_of_all_kinds(self):
        with folders(ALL_KINDS) as (folder,):
            done = run("refusals", folder)
        self.assertEqual((done.status, done.fault), (1, ""))
        self.assertEqual(places(done.text), FOUND)
        self.assertEqual({int(number) for number in re.findall(r"^  \d+ of number (\d+): ", done.text, re.M)}, set(range(1, REASONS + 1)))
        for text in PARTS:
            self.assertIn(text, done.text)

    def test_what_stays_behind_a_line(self):
        for name, (files, found) in CASES.items():
            with self.subTest(name), folders(files if isinstance(files, dict) else {"a.cfg": files}) as (folder,):
                done = run("refusals", folder)
                self.assertEqual((done.status, places(done.text), done.fault), (1, found, ""))

    def test_what_is_not_looked_at(self):
        lines = joined("hostname a", "frobnicate", "", " ! a remark", " x", "\ty", "end", " z")
        for text in (lines, lines.replace("\n", "\r\n")):
            with folders({"a.cfg": text}) as (folder,):
                self.assertIn("\n    frobnicate\n    (not looked at: 2 lines below it)\n", run("refusals", folder).text)

    def test_the_first_is_that_of_netcheck(self):
        for name in ("mistyped", "undefined", "unnamed"):
            first = netcheck("routes", str(EXAMPLES / name)).text
            refusal = common.refusal_in(first)
            self.assertEqual(places(run("refusals", str(EXAMPLES / name)).text), f"{common.place_of(refusal)} {refusal.number}")

    def test_nothing(self):
        self.assertEqual(run("refusals", str(EXAMPLES / "site")), (0, "nothing is refused\n", ""))

    def test_the_folder_is_not_touched(self):
        with folders({"a.cfg": "frobnicate\n"}) as (folder,):
            run("refusals", folder)
            self.assertEqual([(path.name, path.read_text()) for path in Path(folder).iterdir()], [("a.cfg", "frobnicate\n")])

    def test_an_end_after_so_many(self):
        with folders({"a.cfg": joined(*["frobnicate"] * 10)}) as (folder,):
            done = run("refusals", "--most", "4", folder)
        self.assertEqual((done.status, places(done.text)), (1, "a.cfg:1 1, a.cfg:2 1, a.cfg:3 1, a.cfg:4 1"))
        self.assertTrue(done.text.endswith("\nStopped after 4 lines: there may be more.\n"))

    def test_a_line_that_stays_refused(self):
        with folders({"a.cfg": "x\n"}) as (folder,), fake_program("echo 'refused 00000.cfg:1: 1'; exit 1") as program:
            done = run("refusals", "--program", program, folder)
        self.assert_fails(done, "a.cfg:1 stays refused when it is taken out, so nothing behind it is looked at")
        self.assertEqual(places(done.text), "a.cfg:1 1")

    def test_no_folder(self):
        self.assert_fails(run("refusals", "no such folder"), "the folder, or a file in it, can't be read")
        self.assert_fails(run("refusals"), "required: DIR")

    def test_every_reason_is_in_the_launcher(self):
        for number in range(1, REASONS + 1):
            self.assertRegex(common.why_refused(number), "; see docs/(LINES|GUIDE).md$")
