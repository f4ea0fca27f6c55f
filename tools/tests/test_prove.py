"""Tests of the launcher's proof with a kit that isn't one: its rattle is a script that writes a library, or refuses."""
import contextlib
import os
import re
import shutil
import signal
import subprocess
import tempfile
import time
from collections import namedtuple
from pathlib import Path

import common
from support import CompanionTest, companion

prove = companion("prove")

VERDICT = "logic=proved functions=1{} sum=d0 native=nat,char,string logic-built=trusted libraries-built=trusted statements=trusted"
# It tells what it was asked, and takes as long as the crate's file `slow` says.
RATTLE = """#!/bin/sh
while [ $# -gt 1 ]; do
    case $1 in
    --crate-name) name=$2 ;;
    -o) made=$2 ;;
    --jobs) jobs=$2 ;;
    esac
    shift
done
echo "$name $jobs" >>"$KIT/asked"
: >"$TMPDIR/left-by-$name"
[ ! -f src/slow ] || { sleep "$(cat src/slow)" & wait; }
[ ! -f src/killed ] || [ "$jobs" = 1 ] || kill -9 $$
if grep -q wrong src/*.rt; then
    echo "./src/lib.rt:1:1: error: this is wrong"
    echo logic=not-proved
    exit 1
fi
case $made in
*.rlib) mkdir "$made" && cat src/*.rt >"$made/format" ;;
*) printf '#!/bin/sh\\n[ "$1" != routes ] || echo routes of 1\\n' >"$made" ;;
esac
cat "src/verdict" 2>/dev/null || echo "$PROVED"
"""
LINK = """#!/bin/sh
while [ "$1" != -o ]; do shift; done
cp "$3" "$2" && chmod +x "$2"
"""
# Without such a crate below, each is proved behind those that it stands on.
CRATES = "low:\nside: low\nmid: low\nnetcheck: mid side clap\nrc_tests: low\n"
SECONDS = "seconds='\n    low 60 mid 240 side 60\n    netcheck 60\n'"

Ran = namedtuple("Ran", "status text fault")


def uses(text):
    return prove.uses_of(text)


def schedule(text, processors=4, memory=10**12, **seconds):
    return prove.Schedule(uses(text), seconds, processors, memory)


def begun(plan):
    """What is begun now, one behind the other."""
    found = []
    while plan.next():
        found.append(plan.next())
        plan.begin(*found[-1])
    return found


class ScheduleTest(CompanionTest):
    def test_the_list_of_crates(self):
        self.assertEqual(uses("# x\nlow:\nhigh may_wait=2: low  clap # y\n\n"), {"low": [], "high": ["low", "clap"]})
        self.assertEqual(prove.below(uses(CRATES), "netcheck"), ["low", "mid", "side"])
        self.assertEqual(prove.table(SECONDS), {"low": 60, "mid": 240, "side": 60, "netcheck": 60})

    def test_those_with_the_longest_chain_come_first(self):
        plan = schedule("a:\nb: a\nc:\nd:\ne:\nnetcheck: b c d e\n", processors=2, a=50, b=60, c=100, d=120, e=10, netcheck=10)
        self.assertEqual(begun(plan), [("d", 1), ("a", 1)])
        plan.end("a")
        self.assertEqual(begun(plan), [("c", 1)])

    def test_four_jobs_where_processors_would_be_left_over(self):
        plan = schedule("a:\nb: a\nnetcheck: b\n")
        self.assertEqual(begun(plan), [("a", 4)])
        plan = schedule("a:\nb:\nc:\nnetcheck: a b c\n", a=3, b=2, c=1)
        self.assertEqual(begun(plan), [("a", 4), ("b", 1), ("c", 1)])
        plan = schedule("a:\nb:\nc:\nnetcheck: a b c\n", processors=3)
        self.assertEqual([jobs for _, jobs in begun(plan)], [1, 1, 1])
        self.assertEqual(begun(schedule("netcheck:\n", processors=1)), [("netcheck", 1)])

    def test_memory(self):
        plan = schedule("a:\nb:\nnetcheck: a b\n", memory=0)
        self.assertEqual(begun(plan), [("a", 1)])
        one = prove.LEAST + 100 * prove.EACH
        for room, first in ((1.5, [("a", 1)]), (2, [("a", 4)]), (2.8, [("a", 4), ("b", 1)]), (3.6, [("a", 4), ("b", 4)])):
            self.assertEqual(begun(schedule("a:\nb:\nnetcheck: a b\n", memory=room * one)), first)

    def test_what_was_killed_runs_alone(self):
        plan = schedule("a:\nb:\nnetcheck: a b\n")
        begun(plan)
        plan.lone.add("a")
        plan.end("a", False)
        self.assertEqual(begun(plan), [])
        plan.end("b")
        self.assertEqual(begun(plan), [("a", 1)])

    def test_how_long_it_takes(self):
        plan = schedule("a:\nb: a\nnetcheck: b\n", processors=1, a=60, b=120, netcheck=20)
        self.assertEqual(plan.seconds_left({}), 200)
        begun(plan)
        self.assertEqual(plan.seconds_left({"a": 20}), 180)
        self.assertEqual(plan.seconds_left({"a": 500}), 143)
        self.assertEqual((plan.left, plan.running), ({"b", "netcheck"}, {"a": 1}))

    def test_the_whole_proof(self):
        done = subprocess.run([prove.__file__, "--simulate", "1"], capture_output=True, text=True, check=True)
        found = re.fullmatch(r"([\d.]+) min: ([\d.]+) min of a processor, ([\d.]+) in the longest chain, at one job each\n", done.stdout)
        self.assertEqual(found[1], found[2])


@contextlib.contextmanager
def repository():
    """A repository of small crates with the launcher, and a kit beside it."""
    with tempfile.TemporaryDirectory() as outer:
        root, plain = Path(outer, "root"), Path(outer, "plain")
        made = {
            "kit/bin/rattle": RATTLE, "kit/bin/rattle-link": LINK, "kit/toolchain/bin/clang": "#!/bin/sh\necho $CALLED\n",
            "kit/bin/rt": "#!/bin/sh\necho ${0%/bin/rt}/START-HERE.md\n", "kit/KIT-ID": "a kit\n",
            "x/crates.txt": CRATES, "x/HANDLES": "Handles allowed: Wait.\n",
            "x/crates/netcheck/args": "routes\n", "x/crates/netcheck/stdout": "routes of 1\n",
        }
        for name in ("netcheck", "tools/prove"):
            text = (common.ROOT / name).read_text(encoding="utf-8")
            made[f"x/{name}"] = re.sub(r"^seconds='.*?'", SECONDS, text, flags=re.M | re.S)
        for name in ("low", "mid", "side", "netcheck"):
            made[f"x/crates/{name}/src/{'main' if name == 'netcheck' else 'lib'}.rt"] = f"// {name}\n"
        for name, text in made.items():
            path = plain / name
            path.parent.mkdir(parents=True, exist_ok=True)
            path.write_text(text, encoding="utf-8")
            path.chmod(0o755)
        # What this process wrote itself may still be open in one that another test begins, and then it can't be run.
        subprocess.run(["cp", "-R", plain, root], check=True)
        (root / "tmp").mkdir()
        yield root


SIGNALS = (signal.SIGTERM, signal.SIGINT, signal.SIGHUP)


def take_signals():
    """A script that runs in the background has them ignored, and so would all that it starts."""
    for number in SIGNALS:
        signal.signal(number, signal.SIG_DFL)


class LauncherTest(CompanionTest):
    """The launcher's whole way, but for the prover."""

    def start(self, root, *words, **environment):
        given = {"PATH": f"{root}/kit/bin:{os.environ['PATH']}", "KIT": f"{root}/kit", "TMPDIR": f"{root}/tmp", "PROVED": VERDICT.format("")}
        how = {"stdin": subprocess.DEVNULL, "stdout": subprocess.PIPE, "stderr": subprocess.PIPE, "text": True}
        return subprocess.Popen([root / "x/netcheck", *words], env={**os.environ, "CALLED": "write", **given, **environment}, preexec_fn=take_signals, **how)

    def launch(self, root, *words, **environment):
        started = self.start(root, *words, **environment)
        text, fault = started.communicate(timeout=60)
        self.assertEqual(list((root / "tmp").iterdir()), [])
        return Ran(started.returncode, text, fault)

    def asked(self, root):
        """Which crates were proved since this was asked last."""
        path = root / "kit/asked"
        text = path.read_text() if path.is_file() else ""
        path.write_text("")
        return sorted(text.split()[::2])

    def assert_refused(self, root, why, *words, **environment):
        done = self.launch(root, *words, **environment)
        self.assertEqual((done.status, done.text), (70, ""))
        self.assertIn(why, done.fault)
        self.assertNotIn("Traceback", done.fault)

    def test_a_build_a_run_and_a_change(self):
        with repository() as root:
            done = self.launch(root, "routes", "x")
            self.assertEqual((done.status, done.text), (0, "routes of 1\n"))
            lines = done.fault.splitlines()
            self.assertRegex(lines[0], "^netcheck: building the proved program, which takes .* the first time")
            self.assertEqual(lines[1], "netcheck: no crate is proved yet; 0 % of the work is done, about 4 min are left")
            self.assertRegex(lines[2], r"^netcheck: low is proved; 14 % of the work is done, about \d min are left$")
            self.assertEqual(lines[-1], "netcheck: all crates are proved; the program is built and tried")
            self.assertEqual(self.asked(root), ["low", "mid", "netcheck", "side"])
            self.assertEqual(self.launch(root, "routes", "x"), (0, "routes of 1\n", ""))
            (root / "x/crates/side/src/lib.rt").write_text("// another\n")
            done = self.launch(root)
            self.assertIn("netcheck: 2 crates are kept from an earlier run; 71 % of the work is done, about ", done.fault)
            self.assertEqual((done.status, self.asked(root)), (0, ["netcheck", "side"]))
            (root / "x/crates/low/src/lib.rt").write_text("// another\n")
            self.assertEqual((self.launch(root).status, self.asked(root)), (0, ["low", "mid", "netcheck", "side"]))

    def test_checksums_only_where_something_was_touched(self):
        with repository() as root:
            counted = root / "kit/counted"
            count = root / "kit/bin/cksum"
            count.write_text(f'#!/bin/sh\n: >"$KIT/counted"\nexec {shutil.which("cksum")} "$@"\n')
            count.chmod(0o755)

            def is_counted():
                self.assertEqual(self.launch(root, "routes", "x"), (0, "routes of 1\n", ""))
                found = counted.exists()
                counted.unlink(missing_ok=True)
                return found

            self.launch(root)
            time.sleep(2.1)  # what was written in the last two seconds counts as touched
            is_counted()
            self.assertFalse(is_counted())
            (root / "x/crates/low/src/lib.rt").touch()
            self.assertTrue(is_counted())
            (root / "x/crates/low/out").mkdir()
            time.sleep(2.1)
            self.assertTrue(is_counted())
            (root / "x/crates/low/out/made").touch()
            self.assertFalse(is_counted())
            seen = root / "x/.netcheck/proved/seen"
            for other in ("", seen.read_text().replace(" 1", " 2", 1)):  # another time, be it an earlier or a later one
                seen.write_text(other)
                self.assertTrue(is_counted())
                self.assertFalse(is_counted())
            self.asked(root)
            lib, more = root / "x/crates/side/src/lib.rt", root / "x/crates/side/src/more.rt"
            for change in (lambda: lib.write_text("// other\n"), lambda: more.write_text("// more\n"), more.unlink, lambda: lib.replace(more)):
                change()
                self.launch(root)
                self.assertEqual(self.asked(root), ["netcheck", "side"])

    def test_companions_run_the_program_that_is_kept(self):
        with repository() as root:
            kept = root / "x" / common.KEPT.relative_to(common.ROOT)
            self.assertFalse(kept.exists())
            self.launch(root)
            self.assertTrue(os.access(kept, os.X_OK))

    def test_the_program_that_is_built_and_current(self):
        with repository() as root:
            proved, unproved = (root / "x/.netcheck" / kind / "netcheck" for kind in ("proved", "unproved"))
            self.assertEqual(self.launch(root, "--program"), (70, "", ""))
            self.assertFalse((root / "x/.netcheck").exists())
            self.launch(root)
            self.assertEqual(self.launch(root, "--program"), (0, f"{proved}\n", ""))
            unproved.parent.mkdir()
            shutil.copy(proved, unproved)
            read = "cd \"$0\" && grep : crates.txt | grep -v rc_tests && find crates/*/src -type f -exec cksum {} + | LC_ALL=C sort"
            listed = subprocess.run(["sh", "-c", read, root / "x"], capture_output=True, check=True).stdout.splitlines(keepends=True)
            of_crates = {line.split(b":")[0]: line for line in listed if b":" in line}
            order = [b"low", b"mid", b"side", b"netcheck"]
            (unproved.parent / "sources").write_bytes(b"".join([*(of_crates[name] for name in order), *(line for line in listed if b":" not in line)]))
            self.assertEqual(self.launch(root, "--program"), (0, f"{proved}\n", ""))
            proved.unlink()
            self.assertEqual(self.launch(root, "--program"), (0, f"{unproved}\n", ""))
            (root / "x/crates/low/src/lib.rt").write_text("// another\n")
            self.assertEqual(self.launch(root, "--program"), (70, "", ""))
            self.assertEqual(self.asked(root), ["low", "mid", "netcheck", "side"])

    def test_large_pages_are_asked_for(self):
        with repository() as root:
            self.launch(root)
            (root / "x/.netcheck/proved/netcheck").write_text('#!/bin/sh\necho "$GLIBC_TUNABLES"\n')
            asked = "glibc.malloc.hugetlb=1:glibc.malloc.mmap_threshold=67108864"
            self.assertEqual(self.launch(root), (0, f"{asked}\n", ""))
            self.assertEqual(self.launch(root, GLIBC_TUNABLES="glibc.malloc.check=1"), (0, f"{asked}:glibc.malloc.check=1\n", ""))

    def test_what_else_a_verdict_rests_on(self):
        with repository() as root:
            self.launch(root)
            self.asked(root)
            for change in ("kit/KIT-ID", "x/HANDLES"):
                (root / change).write_text("Handles allowed: Wait, Net.\n")
                (root / "x/.netcheck/proved/sources").unlink()
                self.assertEqual((self.launch(root).status, self.asked(root)), (0, ["low", "mid", "netcheck", "side"]))
            (root / "x/.netcheck/proved/libraries/mid.of").unlink()
            (root / "x/.netcheck/proved/libraries/gone.rlib").mkdir()
            (root / "x/.netcheck/proved/sources").unlink()
            self.assertEqual((self.launch(root).status, self.asked(root)), (0, ["mid", "netcheck"]))
            self.assertFalse((root / "x/.netcheck/proved/libraries/gone.rlib").exists())
            (root / "x/.netcheck/proved/libraries/side.rlib/format").write_text("damaged\n")
            (root / "x/.netcheck/proved/sources").unlink()
            self.assertEqual((self.launch(root).status, self.asked(root)), (0, ["netcheck", "side"]))

    def test_a_proof_that_fails(self):
        with repository() as root:
            (root / "x/crates/mid/src/lib.rt").write_text("wrong\n")
            self.assert_refused(root, "./src/lib.rt:1:1: error: this is wrong\nmid isn't proved: rattle ended with status 1\nnetcheck: the build failed; its log is ")
            self.assertFalse((root / "x/.netcheck/proved/netcheck").exists())
            self.asked(root)
            (root / "x/crates/mid/src/lib.rt").write_text("// right\n")
            self.assertEqual(self.launch(root).status, 0)
            self.assertNotIn("low", self.asked(root))

    def test_verdicts_that_are_not_taken(self):
        for word in ("hides=1", "bugs=1", "may-abort=1", "partial=1", "foreign=puts", "main=Threads", "tests=1", "unheard=of"):
            with repository() as root:
                (root / "x/crates/low/src/verdict").write_text(VERDICT.format(f" {word}") + "\n")
                self.assert_refused(root, "low isn't proved: it", PROVED=VERDICT.format(f" {word}"))
        for ending in (" incremental=trusted", " batches=trusted", "\nmore"):
            with repository() as root:
                self.assert_refused(root, "low isn't proved: its last line", PROVED=VERDICT.format("") + ending)
        with repository() as root:
            self.assertEqual(self.launch(root, PROVED=VERDICT.format(" main=Wait may-wait=2")).status, 0)

    def test_a_program_that_calls_too_much(self):
        with repository() as root:
            self.assert_refused(root, "the handle Net gives, which HANDLES doesn't allow: socket", CALLED="write socket@GLIBC_2.2.5")
            self.assert_refused(root, "the handle Threads gives", CALLED="pthread_create@GLIBC_2.34")

    def test_a_program_that_writes_something_else(self):
        with repository() as root:
            (root / "x/crates/netcheck/stdout").write_text("routes of 2\n")
            self.assert_refused(root, "wrote something else than crates/netcheck/stdout has")

    def test_no_kit(self):
        with repository() as root:
            (root / "kit/bin/rattle").unlink()
            self.assert_refused(root, "the Rattle kit has no rattle, which proves")
            (root / "kit/bin/rt").unlink()
            self.assert_refused(root, "the command rt of the Rattle toolchain is not found", PATH="/usr/bin:/bin")

    def test_a_proof_that_is_killed_runs_alone(self):
        with repository() as root:
            (root / "x/crates/low/src/killed").write_text("")
            self.assertEqual(self.launch(root).status, 0)
            self.assertEqual(self.asked(root), ["low", "low", "mid", "netcheck", "side"])

    def test_signals(self):
        for number in SIGNALS:
            with repository() as root:
                (root / "x/crates/mid/src/slow").write_text("3600.5")
                started = self.start(root)
                while not [*(root / "x/.netcheck").rglob("side.of")]:
                    time.sleep(0.05)
                started.send_signal(number)
                self.assertEqual(started.wait(timeout=20), 70)
                started.communicate()
                self.assertEqual(list((root / "tmp").iterdir()), [])
                self.assertEqual(subprocess.run(["pgrep", "-f", f"^sleep 3600.5|{root}/kit/bin/rattle"], capture_output=True, check=False).stdout, b"")
                (root / "x/crates/mid/src/slow").unlink()
                self.asked(root)
                self.assertEqual((self.launch(root).status, self.asked(root)), (0, ["mid", "netcheck"]))
