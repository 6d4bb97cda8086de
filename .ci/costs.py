"""Measures CI's proofs: runs a command and writes a table of the processor seconds that the prover took for each crate: its own proof, the proof
of its tests, and its must-fail edits (with the check of the crate that they begin with).

    python3 .ci/costs.py [--table FILE] [COMMAND WORD..]

The command is `rt ci`, unless another is given. Some kits keep what passed, and prove only what changed: give `rt ci --anew` to prove all. With
--table the command's output passes through as it is, and the table goes to the file. Without it the output goes to standard error, and the table
to standard output. The status is the command's.

It looks at /proc five times a second, so a row may lack a fifth of a second for each check. On a busy machine every check takes longer."""

import contextlib
import os
import subprocess
import sys
import time

TICKS = os.sysconf("SC_CLK_TCK")
KINDS = ("own", "tests", "edits")


def read(path):
    try:
        with open(path, "rb") as file:
            return file.read()
    except OSError:
        return b""


def stat_of(pid):
    """Name, parent, start and processor ticks of a process and of its children that have ended, or nothing."""
    name, _, rest = read(f"/proc/{pid}/stat").rpartition(b")")
    words = rest.split()
    return (name.partition(b"(")[2], int(words[1]), words[19], sum(map(int, words[11:15]))) if len(words) > 19 else None


def kind_of(words, folder):
    """What a check of the prover is for."""
    if "/rt-edit-" in folder:
        return "edits"
    return "tests" if "--test" in words else "own"


def is_below(pid, gate):
    """Whether a process was started by the gate, or by one that it started."""
    while pid > 1 and pid != gate:
        found = stat_of(pid)
        pid = found[1] if found else 0
    return pid == gate


def look(seen, gate):
    for pid in filter(str.isdigit, os.listdir("/proc")):
        found = stat_of(pid)
        above = found and found[0] == b"rattle" and stat_of(found[1])
        if not above or above[0] == b"rattle" or not is_below(found[1], gate):
            continue
        key = pid, found[2]
        if key not in seen:
            words = read(f"/proc/{pid}/cmdline").decode(errors="replace").split("\0")
            try:
                folder = os.readlink(f"/proc/{pid}/cwd")
            except OSError:
                continue
            if "--crate-name" not in words:
                continue
            seen[key] = [words[words.index("--crate-name") + 1], kind_of(words, folder), 0]
        seen[key][2] = found[3]


def table(seen):
    """The lines of the table: a row for each crate, the dearest first, and the sums in minutes."""
    crates = {}
    for name, kind, ticks in seen.values():
        row = crates.setdefault(name, dict.fromkeys(KINDS, 0))
        row[kind] += ticks / TICKS
    total = {kind: sum(row[kind] for row in crates.values()) for kind in KINDS}
    lines = ["| Crate | Own proof | Its tests | Its edits | Together |", "|---|---|---|---|---|"]
    for name, row in sorted(crates.items(), key=lambda it: -sum(it[1].values())):
        lines.append(f"| {name} | " + " | ".join(f"{row[kind]:.0f}" if row[kind] else "" for kind in KINDS) + f" | {sum(row.values()):.0f} |")
    minutes = [total[kind] / 60 for kind in KINDS]
    lines.append("| all, in minutes | " + " | ".join(f"{it:.0f}" for it in minutes) + f" | {sum(minutes):.0f} |")
    return "".join(f"{line}\n" for line in lines)


def watch(seen, pid):
    """Looks once. Processes come and go while it reads them, so it may miss one."""
    try:
        look(seen, pid)
    except (OSError, ValueError, IndexError):
        pass


def main():
    words, path = sys.argv[1:], None
    if words[:1] == ["--table"]:
        path, words = words[1], words[2:]
    seen = {}
    run = subprocess.Popen(words or ["rt", "ci"], stdout=None if path else sys.stderr)
    while run.poll() is None:
        watch(seen, run.pid)
        time.sleep(0.2)
    with open(path, "w", encoding="utf-8") if path else contextlib.nullcontext(sys.stdout) as file:
        file.write(table(seen))
    sys.exit(run.returncode if run.returncode >= 0 else 128 - run.returncode)


if __name__ == "__main__":
    main()
