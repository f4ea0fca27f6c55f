"""The companions' examples in the guide write what stands below them there."""
import re
import subprocess

import common
from support import CompanionTest, run


def examples():
    """Each command of the guide that runs a companion, with what stands below it."""
    text = (common.ROOT / "docs/GUIDE.md").read_text(encoding="utf-8")
    for block in re.findall(r"^```\n(.*?)^```$", text, re.M | re.S):
        for command, below in re.findall(r"^\$ tools/(.*)\n((?:(?!\$ ).*\n)*)", block, re.M):
            yield command, below


class GuideTest(CompanionTest):
    def test_examples(self):
        for command, below in examples():
            with self.subTest(command):
                companion, _, behind = command.partition(" | ")
                text = run(*companion.split(), directory=common.ROOT).text
                if behind:
                    text = subprocess.run(behind, shell=True, input=text, text=True, stdout=subprocess.PIPE, check=True).stdout
                self.assertEqual(text, below)
