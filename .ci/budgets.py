"""Budgets of pages: numbers in a file that may only fall.

A budget file has comment lines with '#', a line `columns NAME..`, and rows:

    goal PATTERN N..    what pages of this name must reach; the first pattern that fits counts; '-' is no limit
    now NAME N..        what a page may have today, if that is above its goal

A page without a row `now` must meet its goal. A page that neither row names has no limit.
"""

import fnmatch

from common import git, path_of, text_of

NO_LIMIT = float("inf")


def number(word):
    return NO_LIMIT if word == "-" else float(word)


def shown(value):
    return "-" if value == NO_LIMIT else f"{value:g}"


class Budgets:
    """The rows of a budget file."""

    def __init__(self, text):
        self.columns, self.goals, self.now = [], {}, {}
        for line in text.split("\n"):
            words = line.split()
            if words[:1] == ["columns"]:
                self.columns = words[1:]
            elif words[:1] in (["goal"], ["now"]):
                rows = self.goals if words[0] == "goal" else self.now
                rows[words[1]] = [number(word) for word in words[2:]]

    def goal(self, name):
        for pattern, numbers in self.goals.items():
            if fnmatch.fnmatchcase(name, pattern):
                return numbers
        return [NO_LIMIT] * len(self.columns)

    def limits(self, name):
        """What a page may have: a row `now` counts where it is above the goal."""
        return [max(pair) for pair in zip(self.now[name], self.goal(name))] if name in self.now else self.goal(name)


def rows_of(budgets, today):
    """The rows `now` for today's numbers: each no higher than the limit before, and none below its goal."""
    for name in sorted(today):
        goal = budgets.goal(name)
        old = budgets.limits(name) if name in budgets.now else [NO_LIMIT] * len(goal)
        numbers = [max(least, min(before, value)) for least, before, value in zip(goal, old, today[name])]
        if numbers != goal:
            yield f"now {name} " + " ".join(shown(it) for it in numbers)


def tighten(path, today):
    """Writes today's numbers into a budget file."""
    text = text_of(path)
    kept = [line for line in text.rstrip("\n").split("\n") if not line.startswith("now ")]
    with open(path_of(path), "w", encoding="utf-8") as file:
        file.write("\n".join([*kept, *rows_of(Budgets(text), today)]) + "\n")


def over(path, today, what):
    """Faults: numbers over their limits. `what` says for a page and a column what is wrong, a line each."""
    budgets = Budgets(text_of(path))
    for name, numbers in sorted(today.items()):
        for column, value, limit in zip(budgets.columns, numbers, budgets.limits(name)):
            if value > limit:
                yield f"{name}:1: has {shown(value)} {column}, and may have {shown(limit)} ({path})"
                yield from what(name, column)


def looser(path, today):
    """Faults: limits that are higher than on the last commits, of pages that were there."""
    budgets = Budgets(text_of(path))
    for revision in ("HEAD", "HEAD^"):
        text = git("show", f"{revision}:{path}")
        if text is None:
            continue
        before = Budgets(text)
        there = set((git("ls-tree", "-r", "--name-only", revision) or "").split("\n"))
        for name in today:
            if name not in there and ("/" in name or "." in name):
                continue
            for column, value, limit in zip(budgets.columns, budgets.limits(name), before.limits(name)):
                if value > limit:
                    yield f"{path}:1: {name} may have {shown(value)} {column}, and on {revision} {shown(limit)}; budgets may only fall"
