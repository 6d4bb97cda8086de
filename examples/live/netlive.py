"""Drives hosts of a simulated network from Python: a coroutine for each place of a world. docs/LIVE.md explains netlive.

    async def client(place):
        data = await place.dial('il!helix!echo')
        await data.write('hello')
        print(place.now, await data.read())

    netlive.run(['./netlive', 'echo.world', 'run'], server, client)

Needs Python 3.10 and its standard library. The same programs send the same lines each time, if they use no real timers, no threads and no chance.
"""

import asyncio
import collections
import os
import subprocess
import sys
import traceback
from itertools import zip_longest

FOREVER = 1000000000
# The replies with a number, in words.
MEANINGS = {
    "hungup 1": "connection refused",
    "hungup 2": "timed out",
    "hungup 3": "hung up here",
    "hungup 4": "hung up by the peer",
    "csrefused 3": "no such host",
    "csrefused 4": "no such service",
}

End = collections.namedtuple("End", "word moment")
End.__doc__ = "How a run ended: `done`, `stopped` or `limit`, and the virtual time in ms."


class Refused(OSError):
    """A step failed. `reply` is the reply of the network, for example `hungup 1`."""

    def __init__(self, step, reply):
        super().__init__(f"{step}: {MEANINGS[reply]} ({reply})" if reply in MEANINGS else f"{step}: {reply}")
        self.step, self.reply = step, reply


class Ended(BaseException):
    """The run has ended. No handler of `Exception` catches this, so it ends the coroutine."""


class Loop(asyncio.SelectorEventLoop):
    """An event loop that counts the callbacks that coroutines schedule."""

    scheduled = 0

    def call_soon(self, callback, *args, **more):
        self.scheduled += 1
        return super().call_soon(callback, *args, **more)

    def when_quiet(self, call, count=-1):
        """Calls `call` as soon as every coroutine waits: nothing was scheduled since this callback went to the end of the queue."""
        if count == self.scheduled:
            call()
        else:
            super().call_soon(self.when_quiet, call, self.scheduled)


class Step:
    """A step without an answer: the words before its text, its text, the future of its replies, and the numbers of its lines after they were sent."""

    def __init__(self, words, text, future):
        self.words, self.text, self.future, self.line, self.cancel, self.is_withdrawn = words, text, future, None, None, False


class Place:
    """A place of the world: the steps of a program on its host. netlive has the first step that waits, and gets the next one after its answer."""

    def __init__(self, session, number):
        self.session, self.number, self.files, self.waiting = session, number, 0, collections.deque()
        self.is_over = self.is_ending = False

    @property
    def now(self):
        """The virtual time in ms."""
        return self.session.now

    async def dial(self, address, timeout=None):
        """Calls an address, and returns the data file of the call."""
        return await self.file("d", "dial {} " + address, timeout)

    async def announce(self, address):
        """Accepts calls to an address, and returns a file for `listen`."""
        return await self.file("a", "announce {} " + address)

    async def open(self, path, mode="", timeout=None):
        """Opens a file under /net."""
        return await self.file("f", f"open {{}} {path} {mode}".rstrip(), timeout)

    async def cs(self, query):
        """Returns the lines of the connection server."""
        return bytes_of(await self.step("cs " + query)).decode().splitlines()

    async def sleep(self, ms):
        """Waits for so much virtual time."""
        if ms > 0:
            await self.step(f"until {min(self.now + ms, FOREVER)}")

    async def wait(self, awaitable):
        """Waits for another coroutine, such as `queue.get()`, and lets the clock advance in the meantime."""
        other, sleep = asyncio.ensure_future(awaitable), asyncio.ensure_future(self.step(f"until {FOREVER}"))
        try:
            await asyncio.wait([other, sleep], return_when=asyncio.FIRST_COMPLETED)
            return other.result() if other.done() else sleep.result() and await other
        finally:
            other.cancel()
            sleep.cancel()
            [error] = await asyncio.gather(sleep, return_exceptions=True)
            if isinstance(error, ValueError):
                raise error

    async def file(self, letter, step, timeout=None):
        """Takes a step that binds a name, and returns the file of this name."""
        self.files += 1
        name = f"{letter}{self.files}"
        await self.step(step.format(name), timeout)
        return File(self, name)

    async def step(self, text, timeout=None):
        """Takes a step of docs/WORLDS.md, and returns its replies, one for each event.

        Raises Refused if the step fails, TimeoutError if it cannot begin within the timeout in ms, and Ended after the end of the run.
        """
        if "\n" in text or (timeout is not None and timeout < 1):
            raise ValueError(f"a step is one line, and a timeout is at least 1 ms: {text!r}, {timeout}")
        if self.is_over:
            raise Ended
        if asyncio.current_task() in self.session.cancelled:
            self.session.cancelled.remove(asyncio.current_task())
            raise asyncio.CancelledError
        limit = f"by {self.now + timeout} " if timeout is not None and self.now + timeout <= FOREVER else ""
        step = Step(f"{self.number} {limit}", text, self.session.loop.create_future())
        self.waiting.append(step)
        self.session.settle_later()
        try:
            return await asyncio.shield(step.future)
        except asyncio.CancelledError:
            return await self.withdraw(step)

    async def withdraw(self, step):
        """Cancels a step. If that comes too late, returns the replies, and the next step of the coroutine raises CancelledError."""
        self.session.settle_later()
        if step in self.waiting and step.line is None:
            self.waiting.remove(step)
            raise asyncio.CancelledError
        step.is_withdrawn = True
        try:
            replies = await asyncio.shield(step.future)
        except OSError:
            raise asyncio.CancelledError from None
        self.session.cancelled.add(asyncio.current_task())
        return replies

    def answer(self, word, replies):
        """Ends the step that waits first."""
        step = self.waiting.popleft()
        if word == "unanswered":
            self.is_over, self.is_ending = True, False
        if step.future.done():
            return
        if word == "answered":
            step.future.set_result(replies)
        elif word == "cancelled":
            step.future.cancel()
        else:
            step.future.set_exception(
                Refused(step.text, replies[-1]) if word == "refused" else TimeoutError(f"{step.text}: too late") if word == "late" else Ended()
            )

    def refuse(self, number, line):
        """Ends the step whose line is invalid. A `cancel` with cause 52 came too late, and the step continues."""
        for step in list(self.waiting):
            if number == step.line:
                self.waiting.remove(step)
            if number == step.line or (number == step.cancel and not line.endswith(" 52")):
                step.future.set_exception(ValueError(f"netlive does not take the step {step.text[:200]!r}, or its cancel: {line}"))


class File:
    """An open file of a place, under a name that this library chose."""

    def __init__(self, place, name):
        self.place, self.name = place, name

    async def read(self, count=8192, timeout=None):
        """Reads at most so many bytes. No bytes are the end of a call."""
        return bytes_of(await self.place.step(f"read {self.name} {count}", timeout))

    async def write(self, data, timeout=None):
        """Writes a message, as bytes or as a text."""
        data = data.encode() if isinstance(data, str) else bytes(data)
        is_plain = data and all(32 <= byte < 127 for byte in data)
        await self.place.step(f"write {self.name} {data.decode()}" if is_plain else f"writex {self.name} {data.hex() or '-'}", timeout)

    async def close(self):
        await self.place.step(f"close {self.name}")

    async def listen(self, timeout=None):
        """Waits for a call to an announced address, and returns its ctl file."""
        return await self.place.file("c", "listen {} " + self.name, timeout)

    async def accept(self):
        """Takes a call, and returns its data file."""
        return await self.place.file("d", "accept {} " + self.name)

    async def reject(self):
        """Hangs up a call, and closes its ctl file."""
        await self.place.step(f"reject {self.name}")

    async def __aenter__(self):
        return self

    async def __aexit__(self, *error):
        await self.close()


def bytes_of(replies):
    """The bytes of the last reply, such as `bytes 6869`."""
    word = replies[-1].split(" ")[1]
    return b"" if word == "-" else bytes.fromhex(word)


class Session:
    """The process netlive with its pipes. It delivers one answer at a time, and only when every coroutine waits."""

    def __init__(self, command, loop):
        self.loop, self.now, self.end, self.sent, self.delivered = loop, 0, None, 0, 0
        self.process = subprocess.Popen(command, stdin=subprocess.PIPE, stdout=subprocess.PIPE, bufsize=0)
        self.input, self.output = self.process.stdin.fileno(), self.process.stdout.fileno()
        self.first = self.process.stdout.readline().decode().rstrip("\n")
        words = self.first.split(" ")
        self.is_started = words[:2] == ["netlive", "1"]
        self.places = {word: Place(self, int(word)) for word in words[2:]} if self.is_started else {}
        self.unsent, self.rest, self.lines, self.is_settling = b"", b"", collections.deque(), False
        self.tasks, self.cancelled, self.over = [], set(), loop.create_future()

    def send(self, line):
        """Sends a line, and returns its number."""
        self.sent += 1
        self.unsent += line.encode() + b"\n"
        return self.sent

    def send_lines(self):
        """Sends each `cancel`, and then the next step of each place. A `cancel` comes first, because the clock can advance after a step."""
        firsts = [(place, place.waiting[0] if place.waiting else None) for place in self.places.values()]
        for place, step in firsts:
            if step and step.is_withdrawn and step.cancel is None:
                step.cancel = self.send(f"{place.number} cancel")
        for place, step in firsts:
            if step and step.line is None:
                step.line = self.send(step.words + step.text)
            elif step is None and place.is_ending:
                place.is_ending = False
                self.send(f"{place.number} end")
        self.flush()

    def flush(self):
        """Writes what the pipe takes. The rest follows when the pipe has room."""
        try:
            self.unsent = self.unsent[os.write(self.input, self.unsent) :]
        except BlockingIOError:
            pass
        except BrokenPipeError:
            self.unsent = b""
        if self.unsent:
            self.loop.add_writer(self.input, self.flush)
        else:
            self.loop.remove_writer(self.input)

    def receive(self):
        """Reads what netlive wrote."""
        text = os.read(self.output, 1 << 16)
        *lines, self.rest = (self.rest + text).split(b"\n")
        self.lines += [line.decode() for line in lines]
        if not text:
            self.loop.remove_reader(self.output)
            self.lines.append("")
        self.settle_later()

    def settle_later(self):
        if not self.is_settling:
            self.is_settling = True
            self.loop.when_quiet(self.settle)

    def settle(self):
        """Sends what the coroutines sent, and delivers one line."""
        self.is_settling = False
        self.send_lines()
        if self.lines:
            self.delivered += 1
            self.take(self.lines.popleft())
            self.settle_later()

    def take(self, line):
        head, *replies = line.split(" = ")
        words = head.split(" ")
        if words[0] == "!":
            for place in self.places.values():
                place.refuse(int(words[2]), line)
        elif words[0] in self.places:
            self.now = int(words[2])
            self.places[words[0]].answer(words[3], replies)
        else:
            self.end = End(words[1], int(words[2])) if words[0] == "end" else self.end
            self.finish()

    def finish(self):
        """Ends each step that waits, and then each coroutine that still waits for another one."""
        for place in self.places.values():
            place.is_over, place.is_ending = True, False
            while place.waiting:
                place.answer("unanswered", [])
        if not self.over.done():
            self.over.set_result(None)
        self.loop.when_quiet(lambda: [task.cancel() for task in self.tasks])

    def watch(self, before=None):
        """Every 5 s of real time, says which places stop the clock, if nothing happened in the meantime."""
        idle = [place.number for place in self.places.values() if not place.waiting and not place.is_over]
        if idle and before == (self.sent, self.delivered):
            print(f"netlive.py: the clock waits at {self.now} ms for a step of the places {idle}; Place.wait lets it advance", file=sys.stderr)
        self.loop.call_later(5, self.watch, (self.sent, self.delivered))

    async def play(self, programs):
        """Runs the programs to their end, and the network to its end. Returns whether no program failed."""
        os.set_blocking(self.input, False)
        os.set_blocking(self.output, False)
        self.loop.add_reader(self.output, self.receive)
        self.watch()
        pairs = zip_longest(self.places.values(), programs)
        self.tasks = [asyncio.ensure_future(self.guard(place, program)) for place, program in pairs]
        are_well = await asyncio.gather(*self.tasks)
        await self.over
        return all(are_well)

    async def close(self):
        """Ends each coroutine that is left."""
        self.finish()
        rest = asyncio.all_tasks() - {asyncio.current_task()}
        for task in rest:
            task.cancel()
        await asyncio.gather(*rest, return_exceptions=True)

    async def guard(self, place, program):
        """Runs the program of a place, and ends the place. Returns whether the program did not fail."""
        try:
            if program:
                await program(place)
            return True
        except (Ended, asyncio.CancelledError):
            return True
        except Exception:
            print(f"netlive.py: the program of place {place.number} failed at {self.now} ms", file=sys.stderr)
            traceback.print_exc()
            return False
        finally:
            if not place.is_over:
                place.is_over = place.is_ending = True
                self.settle_later()


def run(command, *programs):
    """Runs netlive with a program for each place, and returns its `End`.

    A program is a coroutine function, or None. Ends Python with status 1 if a program failed, or if netlive did not come to its end.
    """
    loop = Loop()
    session = Session(command, loop)
    process, are_well = session.process, False
    try:
        if session.is_started and len(programs) > len(session.places):
            sys.exit(f"netlive.py: {len(programs)} programs for {len(session.places)} places")
        if session.is_started:
            are_well = loop.run_until_complete(session.play(programs))
    finally:
        loop.run_until_complete(session.close())
        loop.close()
        process.stdin.close()
        said = "" if session.is_started else "\n".join([session.first, process.stdout.read().decode()])
        process.wait()
        process.stdout.close()
    if session.end is None:
        sys.exit(f"netlive.py: {command[0]} stopped early, with status {process.returncode}: {said.strip() or 'it printed no end'}")
    if not are_well:
        sys.exit(1)
    return session.end
