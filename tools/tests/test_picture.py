"""Tests of `picture`: texts for dot that were written by hand from the folders, and what dot makes of them."""
import shutil
import tempfile
import unittest
import xml.etree.ElementTree
from pathlib import Path

from support import EXAMPLES, CompanionTest, companion, folders, run

MASK = "255.255.255.0"
SVG = "{http://www.w3.org/2000/svg}"
# How many lines of a text for dot stand above the boxes.
HEAD = 4


def ring(count, more):
    """Routers in a ring, each with a default route to the next one, and with more lines."""
    files = {}
    for place in range(count):
        before = (place - 1) % count
        files[f"r{place}.cfg"] = "\n".join([
            f"hostname r{place}", "interface GigabitEthernet0/0", f" ip address 10.0.{place}.1 {MASK}",
            "interface GigabitEthernet0/1", f" ip address 10.0.{before}.2 {MASK}",
            *more.get(place, []), f"ip route 0.0.0.0 0.0.0.0 10.0.{place}.2", ""])
    return files


# r2 has a subnet, and r0 denies what comes in from 10.7.0.0/16.
RING = ring(4, {0: [" ip access-group 5 in", "access-list 5 deny 10.7.0.0 0.0.255.255", "access-list 5 permit any"],
                2: ["interface Serial0/0", f" ip address 10.9.0.1 {MASK}"]})
LOOP = """
  "r0" [color="#b2182b", fillcolor="#fddbc7", peripheries=2];
  "r1" [color="#b2182b", fillcolor="#fddbc7", peripheries=2];
  "r2" [color="#b2182b", fillcolor="#fddbc7", peripheries=2];
  "r3" [color="#b2182b", fillcolor="#fddbc7", peripheries=2];
  "r0" -> "r1" [label="Gi0/1", color="#b2182b", fontcolor="#b2182b", penwidth=3.5];
  "r1" -> "r2" [label="Gi0/1", color="#b2182b", fontcolor="#b2182b", penwidth=3.5];
  "r2" -> "r3" [label="Gi0/1", color="#b2182b", fontcolor="#b2182b", penwidth=3.5];
  "r3" -> "r0" [label="Gi0/1", color="#b2182b", fontcolor="#b2182b", penwidth=3.5];
}
"""
DELIVERED = """
  "r0" [color="#1b7837", fillcolor="#d9f0d3"];
  "r1" [color="#1b7837", fillcolor="#d9f0d3"];
  "r2" [color="#1b7837", fillcolor="#d9f0d3"];
  "r3" [color="#1b7837", fillcolor="#d9f0d3"];
  "end delivered" [color="#1b7837", fillcolor="#d9f0d3", label="delivered", shape=ellipse, style=filled];
  "r0" -> "r1" [label="Gi0/1", color="#1b7837", fontcolor="#1b7837"];
  "r1" -> "r2" [label="Gi0/1", color="#1b7837", fontcolor="#1b7837"];
  "r2" -> "end delivered" [color="#1b7837", fontcolor="#1b7837"];
  "r3" -> "r0" [label="Gi0/1", color="#1b7837", fontcolor="#1b7837"];
}
"""
# What r0 sends itself goes on, and what it gets from r3 doesn't.
DENIED = """
  "r0" [color="#1b7837", fillcolor="#d9f0d3"];
  "r1" [color="#1b7837", fillcolor="#d9f0d3"];
  "r2" [color="#1b7837", fillcolor="#d9f0d3"];
  "r3" [color="#b35806", fillcolor="#fee0b6"];
  "end delivered" [color="#1b7837", fillcolor="#d9f0d3", label="delivered", shape=ellipse, style=filled];
  "end denied-in" [color="#b35806", fillcolor="#fee0b6", label="denied-in", shape=ellipse, style=filled];
  "r0" -> "end denied-in" [label="for Gi0/1", color="#b35806", fontcolor="#b35806"];
  "r0" -> "r1" [label="Gi0/1\\nfor own", color="#1b7837", fontcolor="#1b7837"];
  "r1" -> "r2" [label="Gi0/1", color="#1b7837", fontcolor="#1b7837"];
  "r2" -> "end delivered" [color="#1b7837", fontcolor="#1b7837"];
  "r3" -> "r0" [label="Gi0/1", color="#b35806", fontcolor="#b35806"];
}
"""
# edge1 comes into the circle of the two others: an example of the guide.
INTO_A_CIRCLE = """
  "core1" [color="#b2182b", fillcolor="#fddbc7", peripheries=2];
  "dc1" [color="#b2182b", fillcolor="#fddbc7", peripheries=2];
  "edge1" [color="#b2182b", fillcolor="#fddbc7"];
  "core1" -> "dc1" [label="Se0/0/0", color="#b2182b", fontcolor="#b2182b", penwidth=3.5];
  "dc1" -> "core1" [label="Se0/0/0", color="#b2182b", fontcolor="#b2182b", penwidth=3.5];
  "edge1" -> "core1" [label="Gi0/0", color="#b2182b", fontcolor="#b2182b"];
}
"""
TEXTS = (
    (("--dst", "8.8.8.8", "--src", "10.8.0.1"), "dst=8.8.8.8 src=10.8.0.1 in RING\\nloop from 4 routers", LOOP),
    (("--dst", "10.9.0.7"), "dst=10.9.0.7 in RING\\ndelivered from 4 routers", DELIVERED),
    (("--dst", "10.9.0.7", "--src", "10.7.0.1"), "dst=10.9.0.7 src=10.7.0.1 in RING\\ndelivered from 3 routers, denied-in from 1 router", DENIED),
)


class PictureTest(CompanionTest):
    def test_texts_written_by_hand(self):
        with folders(RING) as (folder,):
            for words, title, text in TEXTS:
                done = run("picture", folder, *words, "--dot")
                lines = done.text.replace(folder, "RING").splitlines(keepends=True)
                self.assertEqual(("\n" + "".join(lines[HEAD:]), done.fault, done.status), (text, "", 0))
                self.assertIn(f'label="{title}"', lines[1])

    def test_into_a_circle(self):
        done = run("picture", str(EXAMPLES / "site"), "--dst", "10.9.2.5", "--dot")
        self.assertEqual("\n" + "".join(done.text.splitlines(keepends=True)[HEAD:]), INTO_A_CIRCLE)

    def test_packets_have_all_fields(self):
        words = ("--dst", "10.9.1.20", "--src", "10.1.0.10", "--proto", "6", "--sport", "1", "--dport", "22", "--type", "0", "--code", "0", "--ack", "1", "--rst", "0")
        text = run("picture", str(EXAMPLES / "lists"), *words, "--dot").text
        self.assertIn("delivered from 2 routers", text)
        self.assertIn("dst=10.9.1.20 src=10.1.0.10 proto=6 sport=1 dport=22 type=0 code=0 ack=1 rst=0 in", text)

    def test_short_names(self):
        short = companion("picture").interface_of
        names = {"r": "own", "r:GigabitEthernet0/0.10": "Gi0/0.10", "r:Port-channel1": "Po1", "r:Serial0/0/0": "Se0/0/0", "r:x": "x", "r:a:b": "a:b"}
        self.assertEqual({name: short(name) for name in names}, names)

    def test_names_that_dot_reads_otherwise(self):
        self.assertEqual(companion("picture").quoted('a"b\\c'), '"a\\"b\\\\c"')

    def test_a_file(self):
        with tempfile.TemporaryDirectory() as root:
            file = Path(root, "way.dot")
            done = run("picture", str(EXAMPLES / "base"), "--dst", "10.0.0.1", "--dot", "-o", str(file))
            self.assertEqual((done.text, done.fault, done.status), ("", "", 0))
            self.assertIn('"R1" -> "end accepted"', file.read_text())
            self.assert_fails(run("picture", str(EXAMPLES / "base"), "--dst", "10.0.0.1", "-o", root), "can't be written")

    @unittest.skipUnless(shutil.which("dot"), "dot isn't installed")
    def test_dot_makes_a_picture(self):
        with folders({**RING, "z.cfg": 'hostname z\ninterface a"b\\N&<c>\n'}) as (folder,):
            for words, _, _ in TEXTS:
                done = run("picture", folder, *words)
                root = xml.etree.ElementTree.fromstring(done.text)
                texts = [text.text for text in root.iter(f"{SVG}text")]
                self.assertEqual(root.tag, f"{SVG}svg")
                self.assertTrue({"r0", "r1", "r2", "r3", "z", "no-route"} <= set(texts), texts)

    def test_without_dot(self):
        done = run("picture", str(EXAMPLES / "base"), "--dst", "10.0.0.1", PATH="")
        self.assertTrue(done.text.startswith("digraph way {\n"))
        self.assertEqual((done.fault, done.status), ("picture: dot isn't installed, so this is the text for it\n", 0))

    def test_no_answer(self):
        self.assert_fails(run("picture", str(EXAMPLES / "mistyped"), "--dst", "1.1.1.1"), "edge1.cfg:7: a value is wrong")
        self.assert_fails(run("picture", str(EXAMPLES / "circle"), "--dst", "1.1.1.1"), "never settle")
        self.assert_fails(run("picture", str(EXAMPLES / "base"), "--dst", "1.1.1"), "these words aren't taken")
        self.assert_fails(run("picture", str(EXAMPLES / "base")), "required: --dst")
