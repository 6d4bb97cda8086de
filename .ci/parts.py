"""Runs `rt ci`, and then every check of .ci/, each even if one before it failed.

    python3 -u .ci/parts.py [--checks [NAME..]]

If `rt ci` fails, it ends at once with that status, so the last lines are those of `rt ci`. Otherwise it prints last how much processor time the
proofs of each crate took, how long each part took, and the name of each part that failed. With --checks it leaves `rt ci` out, and runs the
named checks or all.
"""

import sys

sys.dont_write_bytecode = True

import os
import resource
import subprocess
import tempfile
import time

TOP = os.path.abspath(os.path.join(os.path.dirname(os.path.abspath(__file__)), ".."))
# The checks by name, each with its command. Those that need no program come first.
CHECKS = {
    "listings": [".ci/listings"],
    "edits": [".ci/more-edits", "--apply"],
    "links": [".ci/links"],
    "prose": [".ci/prose"],
    "glossary": [".ci/glossary"],
    "sizes": [".ci/sizes"],
    "records": [".ci/records"],
    "manuals": [".ci/manuals"],
    "page_text": [".ci/page_text"],
    "statuses": [".ci/statuses"],
    "live": [".ci/live"],
    "pages": [".ci/pages"],
    "captures": [".ci/captures"],
    "dissector": [".ci/dissector"],
    "browser": [".ci/browser"],
    "release": [".ci/release", "check"],
}


class Part:
    """A part of CI that has ended: its name, its status, and its seconds by the wall and on processors."""

    def __init__(self, name, words):
        self.name = name
        before, began = self.used(), time.monotonic()
        try:
            self.status = subprocess.run(words, cwd=TOP, stdin=subprocess.DEVNULL, check=False).returncode
        except OSError as error:
            print(f"{words[0]}:1: cannot be run ({error.strerror}); put it back, or take it out of .ci/parts.py")
            self.status = 1
        self.wall, self.processor = time.monotonic() - began, self.used() - before

    @staticmethod
    def used():
        """The processor seconds of all processes that this script has started and that have ended."""
        used = resource.getrusage(resource.RUSAGE_CHILDREN)
        return used.ru_utime + used.ru_stime

    def row(self):
        return f"| {self.name} | {self.wall:.1f} | {self.processor:.1f} | {'ok' if self.status == 0 else f'FAILED, status {self.status}'} |"


def prove(table):
    """Runs rt ci, with a table of its costs. Ends this script if it fails."""
    part = Part("rt ci", ["python3", "-u", ".ci/costs.py", "--table", table])
    if part.status != 0:
        sys.exit(part.status if part.status > 0 else 128 - part.status)
    return part


def run_checks(names):
    """Runs checks, each below a line with its name."""
    for name in names:
        print(f"== {name}")
        yield Part(name, CHECKS[name])


def show(parts, costs):
    """Prints the costs and the parts, and ends the script."""
    if costs:
        print(f"== processor seconds of rt ci\n{costs}", end="")
    print("== parts\n| Part | Seconds | Processor seconds | Result |\n|---|---|---|---|")
    for part in parts:
        print(part.row())
    print(f"| all | {sum(part.wall for part in parts):.1f} | {sum(part.processor for part in parts):.1f} | |")
    failed = [part.name for part in parts if part.status != 0]
    print(f"CI FAILED: {', '.join(failed)}" if failed else "CI passed: every part is ok")
    sys.exit(1 if failed else 0)


def main():
    words = sys.argv[1:]
    if words and (words[0] != "--checks" or not set(words[1:]) <= set(CHECKS)):
        sys.exit(f"{__doc__}\nThe checks: {' '.join(CHECKS)}")
    if words:
        show(list(run_checks(words[1:] or CHECKS)), "")
    with tempfile.TemporaryDirectory() as room:
        table = os.path.join(room, "table")
        first = prove(table)
        with open(table, encoding="utf-8") as file:
            costs = file.read()
    show([first, *run_checks(CHECKS)], costs)


if __name__ == "__main__":
    main()
