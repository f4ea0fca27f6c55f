"""Tests of what the companions share."""
from pathlib import Path

import common
from support import CompanionTest, fake_program, run

COMPANIONS = ("refusals", "compare", "picture", "check")


class CommonTest(CompanionTest):
    def test_each_says_that_it_is_not_proved(self):
        for name in COMPANIONS:
            done = run(name, "--help")
            self.assertEqual((done.status, done.fault), (0, ""))
            self.assertIn(common.NOT_PROVED, done.text)
            self.assertLess(max(map(len, done.text.splitlines())), 101)

    def test_texts_of_the_launcher(self):
        self.assertEqual(common.why_refused(6), "no line gives the host name; see docs/GUIDE.md")
        self.assertEqual(common.why_ended(8), "memory ran out")
        self.assertEqual(common.why_ended(77), "it ended with status 77; see docs/GUIDE.md")

    def test_refusals(self):
        self.assertEqual(common.refusal_in("refused a:1: 2.cfg:3: 4\n"), ("a:1: 2.cfg", 3, 4))
        self.assertEqual(common.refusal_in("refused folder: 10\n"), (None, 0, 10))
        self.assertRaises(common.Failure, common.refusal_in, "outcome fixed 1\n")
        self.assertEqual(common.place_of(common.Refusal("a\n\x1b.cfg", 0, 6)), "a  .cfg")

    def test_what_a_program_ends_with(self):
        for status, text in ((6, "can't be read"), (7, "couldn't be written whole"), (8, "memory ran out"), (66, "status 66")):
            with fake_program(f"exit {status}") as program:
                for name, words in (("refusals", ("x",)), ("compare", ("x", "y")), ("picture", ("x", "--dst", "1.1.1.1"))):
                    self.assert_fails(run(name, "--program", program, *words), text)

    def test_no_program(self):
        self.assert_fails(run("refusals", "--program", "/no/such/program", "x"), "the program can't be run")
        self.assert_fails(run("refusals", "x", NETCHECK="/no/such/program"), "the program can't be run")

    def test_the_program_of_the_launcher(self):
        missing = Path("/no/such/program")
        with fake_program("exit 70") as launcher:
            self.assertRaisesRegex(common.Failure, "couldn't build the program", common.built, launcher, missing)
        with fake_program("exit 2") as launcher:
            self.assertEqual(common.built(launcher, Path(launcher)), Path(launcher))
            self.assertEqual(common.built(launcher, missing), launcher)

    def test_the_check_fails_where_a_test_does(self):
        done = run("check", "test_nothing")
        self.assertEqual((done.text, done.fault, done.status), ("2 passed, 0 failed\n", "", 0))
        with fake_program("exit 66") as program:
            done = run("check", "test_nothing", NETCHECK=program)
        self.assertEqual((done.text.splitlines()[-1], done.status), ("0 passed, 2 failed", 1))
        done = run("check", "no such test")
        self.assertEqual((done.text, done.status), ("0 passed, 0 failed\n", 1))
