"""Cancels steps in each way that examples/live/netlive.py has, and prints what follows. .ci/live runs it, and compares what it prints.

python3 live_cancels.py COMMAND..    for a world with two places whose hosts have IL
"""

import asyncio
import os
import sys

sys.path.insert(0, os.path.join(os.path.dirname(os.path.abspath(__file__)), "..", "examples", "live"))

import netlive


class Trial:
    """A coroutine of the second place. The first place cancels it after `ms`, or sets `event`."""

    def __init__(self, name, ms, play, is_cancelled=True):
        self.name, self.ms, self.play, self.is_cancelled = name, ms, play, is_cancelled
        self.task, self.begun, self.event, self.done = None, asyncio.Event(), asyncio.Event(), asyncio.Event()


async def listen(place, _):
    await place.listener.listen()


async def listen_with_deadline(place, _):
    await place.listener.listen(timeout=100)


async def sleep(place, _):
    await place.sleep(500)


async def wait(place, trial):
    await place.wait(trial.event.wait())


async def sleep_as_long(place, trial):
    """Its sleep ends at the same time as that of the first place, so `cancel` comes too late, and ends the second sleep."""
    await place.sleep(trial.ms)
    say(place, "slept")
    await place.sleep(1)


async def dial(place, _):
    """A dial with an entry in the history: no `cancel` withdraws it, and IL ends it after 30 s."""
    await place.dial("il!135.104.9.99!7")


async def wait_twice(place, trial):
    """Two coroutines take steps of one place: the second one waits behind a long step."""
    slept = asyncio.ensure_future(place.sleep(100))
    await place.wait(trial.event.wait())
    say(place, "waited")
    await slept


TRIALS = [
    Trial("before it is sent", None, listen),
    Trial("at time 0", 0, listen),
    Trial("listen", 10, listen),
    Trial("listen with a deadline", 10, listen_with_deadline),
    Trial("sleep", 10, sleep),
    Trial("wait", 10, wait),
    Trial("an event", 10, wait, False),
    Trial("an event behind a step", 10, wait_twice, False),
    Trial("too late", 10, sleep_as_long),
    Trial("dial", 10, dial),
]


def say(place, text):
    print(f"{place.now:6} ms: {text}")


async def first(place):
    """Cancels each trial, or sets its event, and waits for its end."""
    for trial in TRIALS:
        await trial.begun.wait()
        if trial.ms == 0:
            await place.cs("udp!helix!echo")
        elif trial.ms:
            await place.sleep(trial.ms)
        if trial.is_cancelled:
            trial.task.cancel()
        trial.event.set()
        await place.wait(trial.done.wait())


async def second(place):
    """Plays each trial."""
    place.listener = await place.announce("udp!*!echo")
    for trial in TRIALS:
        trial.task = asyncio.ensure_future(trial.play(place, trial))
        trial.begun.set()
        try:
            await trial.task
            say(place, f"{trial.name}: done")
        except asyncio.CancelledError:
            say(place, f"{trial.name}: cancelled")
        trial.done.set()


end = netlive.run(sys.argv[1:], first, second)
print(f"{end.moment:6} ms: {end.word}")
