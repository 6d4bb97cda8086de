"""What the checks of .ci/ share: the pages of the repository, their lines and command lines, and how faults are printed."""

import glob
import os
import re
import subprocess
import sys

TOP = os.path.abspath(os.path.join(os.path.dirname(os.path.abspath(__file__)), ".."))
PROGRAMS = {name: os.path.join("crates", name, "out", name) for name in ("netsh", "netview", "netexplore", "netlive")}
# Pages for maintainers, beside those of docs/dev. All other pages are for users.
MAINTAINERS = {f"docs/{name}.md" for name in ("DECISIONS", "MAP", "ADDING", "PROVING")} | {"CONTRIBUTING.md"}
# The files at the top and the folders that the scripts, the pages and a release need.
PARTS = ["README.md", "VERSION", "LICENSE", "NOTICE", "CHANGELOG.md", "CONTRIBUTING.md", "SECURITY.md"]
PARTS += ["netsh", "netview", "netexplore", "netlive", "docs", "examples", "release"]


def path_of(name):
    return os.path.join(TOP, name)


def files(*patterns):
    """The files that match, as names below the top, in order."""
    found = {path for pattern in patterns for path in glob.glob(path_of(pattern), recursive=True)}
    return sorted(os.path.relpath(path, TOP) for path in found if os.path.isfile(path))


def pages():
    """All pages in Markdown: README.md first."""
    found = files("*.md", "docs/**/*.md", "examples/**/*.md")
    return sorted(found, key=lambda page: (page != "README.md", page))


def manuals():
    return files("docs/*.1")


def is_for_users(page):
    return page not in MAINTAINERS and not page.startswith("docs/dev/")


def text_of(name):
    with open(path_of(name), encoding="utf-8") as text:
        return text.read()


def lines_of(name):
    return text_of(name).split("\n")


def commands(page):
    """Each command line of a page with the number of its line and what is shown below it: indented blocks and fenced ones."""
    found, shown, fenced = [], None, False
    for number, line in enumerate(lines_of(page), 1):
        if line.startswith("```"):
            fenced, shown = not fenced, None
            continue
        text = line if fenced else line[4:] if line.startswith("    ") else None
        if text is None:
            shown = None
        elif text.startswith("$ "):
            shown = []
            found.append((number, text[2:], shown))
        elif shown is not None:
            shown.append(text)
    return found


def git(*words):
    """What git prints, or None if it fails or is missing."""
    try:
        ran = subprocess.run(["git", "-C", TOP, *words], capture_output=True, check=False)
    except OSError:
        return None
    return ran.stdout.decode("utf-8", "replace") if ran.returncode == 0 else None


def heading_lines(page):
    """Each heading of a page: the number of its line, its depth and its text. Lines of code are no headings."""
    fenced = False
    for number, line in enumerate(lines_of(page), 1):
        fenced ^= line.startswith("```")
        found = re.match(r"(#+) +(.*?) *#*$", line)
        if found and not fenced:
            yield number, len(found.group(1)), found.group(2)


def report(what, found):
    """Prints faults and their count, and ends the script: with 1 if there is a fault."""
    for fault in found:
        print(fault)
    print(f"{what}, faults: {len(found)}")
    sys.exit(1 if found else 0)
