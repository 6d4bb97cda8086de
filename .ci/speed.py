#!/usr/bin/env python3
"""Measures how long runs of netsh take, on inputs of known size. CI does not run this benchmark.

.ci/speed.py [BINARY [RUNS]]

Prints for each command the smallest and the median of RUNS times (7), in milliseconds of wall time and of processor time, and the largest
memory in MB. The memory is never shown below that of this script, about 10 MB. It measures mawk and grep in the same way, and for a long run
the bytes of memory of an entry without its text.
BINARY is crates/netsh/out/netsh, the proved one, unless you name another. Measure on an idle machine.
"""

import os
import resource
import shutil
import subprocess
import sys
import tempfile
import time

TOP = os.path.join(os.path.dirname(os.path.abspath(__file__)), "..")
TUPLES = 10000
PAIRS = 4
MESSAGES = 2000
MOMENTS = 5000
LONG = 9000
# other programs that find the same line: by its fields, by its beginning, by its text
OTHERS = [
    ["mawk", '{ for (i = 1; i <= NF; i++) if ($i == "dom=h99.example.com") print }'],
    ["mawk", "/^\\tdom=h99.example.com$/"],
    ["grep", "-F", "dom=h99.example.com"],
]
# an input of the greatest length
MOST = 4 * 1024 * 1024
PIECE = 65536
# such an input repeats one of these texts
SHAPES = ["a\n", "a ", "%file a\n", "\n", 'sys="a b" x="c d"\n', "sys=x y=z\n", "sys=h1 ip=10.0.0.1\n\tdom=h1.example.com\n"]
# bytes of memory that are enough for a run, and not for the stack of a thread
NO_STACK = 8000 * 1024


def database():
    """TUPLES tuples of three pairs each."""
    systems = (
        f"sys=h{i} ip=10.{i >> 16 & 255}.{i >> 8 & 255}.{i & 255}\n\tdom=h{i}.example.com\n" for i in range(TUPLES - 2)
    )
    return "ipnet=all ip=10.0.0.0 ipmask=255.0.0.0\n\tauth=h5\n" + "".join(systems) + "il=9fs port=17008\n"


def asking(queries):
    """A world whose script asks its connection server a number of queries."""
    head = "networld 1\nend 60000\nseed 7\nmedium ether0 1500\nhost h5 il udp\nif ether0 10.0.0.5 255.0.0.0\nscript h5\n"
    return head + "".join(f"cs net!h{7919 * i % (TUPLES - 2)}!9fs\n" for i in range(queries)) + "ndb\n" + database()


def pairs(crossed):
    """A world of PAIRS pairs of hosts, each pair on its own link. Each end writes MESSAGES messages in turn.

    All callers come before all listeners; If crossed, each caller comes before its listener. The order must make no difference.
    """
    head = "networld 1\nend 1000000000\nseed 3\n"
    media = "".join(f"medium ether{p} 1500\n" for p in range(PAIRS))
    hosts = "".join(
        f"host {name}{p} il udp\nif ether{p} 10.{p}.0.{last} 255.255.255.0\n"
        for p in range(PAIRS)
        for name, last in (("a", 1), ("b", 2))
    )
    ends = [(caller(p), listener(p)) for p in range(PAIRS)]
    scripts = [end for pair in (ends if crossed else zip(*ends)) for end in pair]
    return head + media + hosts + "".join(scripts) + "ndb\n"


def caller(pair):
    turns = "".join(f"write d {n}\nread d 8192\n" for n in range(MESSAGES))
    return f"script a{pair}\nuntil 10\ndial d net!10.{pair}.0.2!17008\n{turns}close d\n"


def listener(pair):
    turns = "".join(f"read e 8192\nwrite e {n}\n" for n in range(MESSAGES))
    return f"script b{pair}\nannounce a net!*!17008\nlisten c a\naccept e c\n{turns}read e 8192\nclose e\nclose c\n"


def moments(scripts):
    """A world of one host whose scripts wait for MOMENTS times each, so the clock advances as often."""
    head = "networld 1\nend 1000000000\nseed 7\nmedium ether0 1500\nhost a il udp\nif ether0 10.0.0.1 255.0.0.0\n"
    script = "script a\n" + "".join(f"until {moment + 1}\n" for moment in range(MOMENTS))
    return head + scripts * script + "ndb\n"


def examples():
    """The worlds of examples/ by name."""
    folder = os.path.join(TOP, "examples")
    for file in sorted(os.listdir(folder)):
        name, kind = os.path.splitext(file)
        if kind == ".world":
            with open(os.path.join(folder, file), encoding="utf-8") as text:
                yield name, text.read()


def shapes():
    """Inputs of about the largest size, each of one shape: name and pieces. The last one is a single value."""
    for unit in SHAPES:
        yield repr(unit[:14]), [unit * (PIECE // len(unit))] * (MOST // PIECE)
    yield "one value", ["sys="] + ["x" * PIECE] * (MOST // PIECE - 1)


def made(binary, messages):
    """The world with a number of messages that the program makes."""
    return subprocess.run([binary, "make", str(messages)], stdout=subprocess.PIPE, check=True).stdout.decode()


def peak(words):
    """The largest memory of a command in bytes. A small process starts it, because the number of a child includes that of its parent."""
    code = "import os, subprocess, sys; p = subprocess.Popen(sys.argv[1:], stdout=subprocess.DEVNULL); print(os.wait4(p.pid, 0)[2].ru_maxrss)"
    return 1024 * int(subprocess.run([sys.executable, "-c", code, *words], stdin=subprocess.DEVNULL, stdout=subprocess.PIPE, check=True).stdout)


def entry_bytes(binary):
    """The bytes of memory that `big` takes for one more entry, with its share of the world. `big` makes no text."""
    entries, peaks = [], []
    for messages in (LONG // 2, LONG):
        text = subprocess.run([binary, "run", "1"], input=made(binary, messages).encode(), stdout=subprocess.PIPE, check=True).stdout
        entries.append(sum(line[:1].isdigit() for line in text.splitlines()))
        peaks.append(peak([binary, "big", str(messages)]))
    return (peaks[1] - peaks[0]) / (entries[1] - entries[0])


def measure(words, pieces, runs, room=None):
    """The wall time and the processor time of each run in milliseconds, and its largest memory in MB. `room` limits the memory, in bytes."""
    walls, processors, peaks = [], [], []

    def limit():
        resource.setrlimit(resource.RLIMIT_AS, (room, room))

    with tempfile.TemporaryFile() as data:
        data.writelines(piece.encode() for piece in pieces)
        for _ in range(runs):
            data.seek(0)
            began = time.monotonic()
            with subprocess.Popen(words, stdin=data, stdout=subprocess.DEVNULL, preexec_fn=limit if room else None) as run:
                _, run.returncode, used = os.wait4(run.pid, 0)
            walls.append(1000 * (time.monotonic() - began))
            processors.append(1000 * (used.ru_utime + used.ru_stime))
            peaks.append(used.ru_maxrss / 1000)
    return sorted(walls), sorted(processors), sorted(peaks)


def main():
    binary = sys.argv[1] if len(sys.argv) > 1 else os.path.join(TOP, "crates", "netsh", "out", "netsh")
    runs = int(sys.argv[2]) if len(sys.argv) > 2 else 7
    show("cs", *measure([binary, "cs", "h5", "net!h9990!9fs"], [database()], runs))
    show("query", *measure([binary, "query", "dom", "h99.example.com"], [database()], runs))
    for words in OTHERS:
        if shutil.which(words[0]):
            show(" ".join(words)[:20], *measure(words, [database()], runs))
    for name, pieces in shapes():
        show(name, *measure([binary, "query", "no", "body"], pieces, runs))
    cases = [(f"{n} queries", ["run", "1"], asking(n)) for n in (1, TUPLES)]
    for crossed in (False, True):
        name, text = f"{PAIRS} {'crossed' if crossed else 'pairs'}", pairs(crossed)
        cases += [(f"{name}, run {n}", ["run", str(n)], text) for n in (1, 2, 4, 16)]
    for scripts in (1, 16):
        text = moments(scripts)
        cases += [(f"{scripts} x until, run {n}", ["run", str(n)], text) for n in (1, 2, 4, 16)]
    cases += [(f"{name}, run {n}", ["run", str(n)], text) for name, text in examples() for n in (1, 16)]
    cases += [(f"big {n}", ["big", str(n)], "") for n in (1000, LONG)]
    cases += [(f"make {LONG}, run 1", ["run", "1"], made(binary, LONG))]
    for name, words, text in cases:
        show(name, *measure([binary, *words], [text], runs))
    print(f"{'an entry':20} {entry_bytes(binary):.0f} bytes", flush=True)
    show("no thread, run 4", *measure([binary, "run", "4"], [dict(examples())["callers"]], runs, NO_STACK))


def show(name, walls, processors, peaks):
    """Prints the smallest and the median of each time, and the largest memory."""
    middle = len(walls) // 2
    times = f"wall {walls[0]:7.1f} {walls[middle]:7.1f}   processor {processors[0]:7.1f} {processors[middle]:7.1f}"
    print(f"{name:20} {times}   memory {peaks[-1]:6.1f}", flush=True)


if __name__ == "__main__":
    main()
