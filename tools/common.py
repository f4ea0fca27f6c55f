"""What the companions share: the program and its answers, the names of endings and fields, and how a companion ends.

A companion asks the program and says more about its answers. The program is proved; the companions are tested and not proved.
"""
import argparse
import os
import re
import subprocess
import sys
from collections import namedtuple
from concurrent.futures import ThreadPoolExecutor
from pathlib import Path

ROOT = Path(__file__).resolve().parent.parent
LAUNCHER = ROOT / "netcheck"
# Where the launcher keeps the program that it has built. To run it from there takes no look at the sources each time.
KEPT = ROOT / ".netcheck/proved/netcheck"

ENDINGS = ("accepted", "delivered", "exits", "denied-in", "denied-out", "no-route", "null-routed", "unreachable")
# The fields of a header in the order in which patterns name them, each with its bits.
FIELDS = {"dst": 32, "src": 32, "proto": 8, "sport": 16, "dport": 16, "type": 8, "code": 8, "ack": 1, "rst": 1}
ADDRESSES = ("dst", "src")

# The statuses of the program that companions tell apart, as docs/GUIDE.md has them.
DONE, REFUSED, NO_PLACE, NOT_BUILT = 0, 1, 9, 70
# What a companion ends with: nothing to tell, something, or no answer, as for bad words.
SAME, DIFFERENT, FAILED = 0, 1, 2
NOT_PROVED = "Tested and not proved: netcheck's answers are proved, and what this companion makes of them isn't."

Answer = namedtuple("Answer", "status text")
Refusal = namedtuple("Refusal", "file line number")


class Failure(Exception):
    """Why a companion can't answer, in plain words."""


def parser_of(description, **settings):
    """A parser of a companion's words, with its description as it is written, that it isn't proved, and the option for the program."""
    text = f"{description.strip()}\n\n{NOT_PROVED}"
    parser = argparse.ArgumentParser(description=text, formatter_class=argparse.RawDescriptionHelpFormatter, **settings)
    where = "the netcheck program; without it that of the environment variable NETCHECK, else that of the launcher ./netcheck"
    parser.add_argument("--program", metavar="PATH", help=where)
    return parser


def add_limits(parser):
    """The options that bound a run of the program, which it gets as they are."""
    parser.add_argument("--rounds", metavar="N", help="how many rounds of tables the program may make, as for netcheck")
    parser.add_argument("--nodes", metavar="N", help="how many nodes the sets of a query may have, as for netcheck")


def limits(arguments):
    given = (("--rounds", arguments.rounds), ("--nodes", arguments.nodes))
    return [word for option, value in given if value is not None for word in (option, value)]


def end_with(main):
    """Ends with the status that `main` answers, or says why it can't answer."""
    for stream in (sys.stdout, sys.stderr):
        stream.reconfigure(errors="replace")
    try:
        status = main()
        sys.stdout.flush()
    except Failure as failure:
        print(f"{Path(sys.argv[0]).name}: {failure}", file=sys.stderr)
        status = FAILED
    except BrokenPipeError:
        os.dup2(os.open(os.devnull, os.O_WRONLY), sys.stdout.fileno())
        status = FAILED
    sys.exit(status)


def printable(text):
    """A text of a file in one line that no terminal takes for more than a text."""
    return "".join(letter if letter.isprintable() else " " for letter in text).rstrip()


def counted(count, word):
    return f"{count:,} {word}" if count == 1 else f"{count:,} {word}s"


# ---- what the program's numbers mean


def in_launcher(name):
    """The texts that a function of the launcher says of numbers: the launcher alone has them."""
    body = re.search(rf"^{name}\(\) {{\n(.*?)^}}", LAUNCHER.read_text(encoding="utf-8"), re.M | re.S)
    rows = re.findall(r"""^ *(\d+)\) (?:echo|say) (["'])(.*?)\2 ;;$""", body[1] if body else "", re.M)
    return {int(number): text for number, _, text in rows}


def why_refused(number):
    return in_launcher("why_refused").get(number, "see docs/GUIDE.md")


def why_ended(status):
    return in_launcher("explain").get(status, f"it ended with status {status}; see docs/GUIDE.md")


def refusal_in(text):
    """The refusal that an answer names, with no file where it is about the folder."""
    found = re.fullmatch(r"refused (?:folder|(.*):(\d+)): (\d+)\n", text, re.S)
    if not found:
        raise Failure(f"the program's answer isn't a refusal: {printable(text)}")
    return Refusal(found[1], int(found[2] or 0), int(found[3]))


def place_of(refusal):
    """Where a refusal is, as the launcher writes it."""
    return printable(refusal.file or "folder") + (f":{refusal.line}" if refusal.line else "")


def told(answer):
    """Why an answer is none, in plain words."""
    if answer.status == REFUSED:
        refusal = refusal_in(answer.text)
        return f"{place_of(refusal)}: {why_refused(refusal.number)}"
    if answer.status == NO_PLACE:
        return f"{why_ended(NO_PLACE)}: {printable(answer.text[len('no place '):])}"
    return why_ended(answer.status)


# ---- the program


class Program:
    """The netcheck program, with words that each run gets behind its own."""

    def __init__(self, path, words=()):
        self.path = path
        self.words = list(words)

    def run(self, *words):
        """The status and the text of one run."""
        command = [self.path, *words, *self.words]
        try:
            done = subprocess.run(command, stdin=subprocess.DEVNULL, stdout=subprocess.PIPE, stderr=subprocess.DEVNULL, check=False)
        except (OSError, ValueError) as fault:
            raise Failure(f"the program can't be run: {fault}") from fault
        return Answer(done.returncode, done.stdout.decode("utf-8", "surrogateescape"))

    def lines(self, *words):
        """The lines below the outcome of a run that has to answer."""
        answer = self.run(*words)
        if answer.status != DONE:
            raise Failure(f"{printable(' '.join(words))}: {told(answer)}")
        return answer.text.splitlines()[1:]

    def lines_of_all(self, runs):
        """The same of many runs, some of them at once."""
        with ThreadPoolExecutor(os.cpu_count()) as pool:
            return list(pool.map(lambda words: self.lines(*words), runs))

    def routes(self, folder):
        """Of each router its routes by prefix, in the program's order."""
        routers = {}
        for line in self.lines("routes", folder):
            word, rest = line.split(" ", 1)
            if word == "router":
                routes = routers[rest] = {}
            else:
                routes[word] = line
        return routers


def program_of(arguments, words=()):
    """The program that the words of a companion name, else the environment, else the one that the launcher builds."""
    path = arguments.program or os.environ.get("NETCHECK")
    return Program(os.path.abspath(path) if path else built(), words)


def built(launcher=LAUNCHER, kept=KEPT):
    """Where the launcher has the program. It builds it where it has to, and says so on standard error."""
    if subprocess.run([launcher], stdout=subprocess.DEVNULL, check=False).returncode == NOT_BUILT:
        raise Failure("the launcher couldn't build the program")
    return kept if kept.is_file() else launcher


def folder_word(folder):
    """A folder as the program takes it: a name that begins with a dash would be an option."""
    return f"./{folder}" if folder.startswith("-") else folder
