"""What the tests of the companions share: folders from texts, runs of a companion, and what netcheck says beside it."""
import contextlib
import importlib.machinery
import importlib.util
import os
import subprocess
import sys
import tempfile
import unittest
from collections import namedtuple
from pathlib import Path

TOOLS = Path(__file__).resolve().parent.parent
EXAMPLES = TOOLS.parent / "examples"

Run = namedtuple("Run", "status text fault")


def companion(name):
    """A companion's code, to call its functions."""
    loader = importlib.machinery.SourceFileLoader(f"companion_{name}", str(TOOLS / name))
    module = importlib.util.module_from_spec(importlib.util.spec_from_loader(loader.name, loader))
    loader.exec_module(module)
    return module


def run(name, *words, directory=None, **environment):
    """A run of a companion, with the program that the check was given."""
    command = [sys.executable, TOOLS / name, *words]
    done = subprocess.run(command, capture_output=True, text=True, cwd=directory, env={**os.environ, **environment}, check=False)
    return Run(done.returncode, done.stdout, done.stderr)


def netcheck(*words):
    done = subprocess.run([os.environ["NETCHECK"], *words], capture_output=True, text=True, check=False)
    return Run(done.returncode, done.stdout, done.stderr)


def as_bytes(content):
    return content if isinstance(content, bytes) else content.encode()


@contextlib.contextmanager
def folders(*contents):
    """A folder for each of these, which give of each file its text."""
    with tempfile.TemporaryDirectory() as root:
        paths = []
        for place, files in enumerate(contents):
            path = Path(root, f"folder{place}")
            path.mkdir()
            for name, content in files.items():
                (path / name).write_bytes(as_bytes(content))
            paths.append(str(path))
        yield paths


@contextlib.contextmanager
def fake_program(script):
    """A program that isn't netcheck: a shell script."""
    with tempfile.TemporaryDirectory() as root:
        path = Path(root, "netcheck")
        path.write_text(f"#!/bin/sh\n{script}\n", encoding="utf-8")
        path.chmod(0o755)
        yield str(path)


class CompanionTest(unittest.TestCase):
    """A test of one companion, which tells of a wrong text all of it."""

    maxDiff = None

    def assert_fails(self, run, text):
        """That a companion can't answer, and says why."""
        self.assertEqual(run.status, 2, run)
        self.assertIn(text, run.fault)
        self.assertNotIn("Traceback", run.fault)
