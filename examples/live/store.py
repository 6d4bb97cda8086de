"""A key-value store over UDP with two workers, and three clients that repeat a request until its answer comes.

usage: python3 store.py [REQUESTS [COMMAND..]], by default 12 ./netlive examples/live/store.world run
"""

import asyncio
import contextlib
import sys

import netlive

REQUESTS = int(sys.argv[1]) if len(sys.argv) > 1 else 12
COMMAND = sys.argv[2:] or ["./netlive", "examples/live/store.world", "run"]
store, announced, served, clients = {}, asyncio.Event(), {0: 0, 1: 0}, {2, 3, 4}


async def worker(place):
    """Answers one request a call: KEY VALUE stores a value, KEY reads it. Both workers take calls from the listener of the first one, conversation 0."""
    if place.number == 0:
        await place.announce("udp!*!store")
        announced.set()
    await announced.wait()
    while clients:
        try:
            call = await place.open("/net/udp/0/listen", timeout=1000)
        except TimeoutError:
            continue
        async with call, await call.accept() as data:
            key, *value = (await data.read()).decode().split(" ")
            store.update({key: text for text in value})
            await data.write(store.get(key, "none"))
        served[place.number] += 1


async def ask(place, text):
    """Sends a request until its answer comes, each time from a new port. Returns the answer and the number of attempts."""
    attempts = 0
    while True:
        attempts += 1
        async with await place.dial("udp!helix!store") as data:
            await data.write(text)
            with contextlib.suppress(TimeoutError):
                return (await data.read(timeout=200)).decode(), attempts


async def client(place):
    """Stores values under its own keys, and reads each one back."""
    attempts, requests = 0, (REQUESTS + place.number - 2) // 3
    for number in range(requests):
        key, value = f"{place.number}.{number // 2}", str(number // 2 * place.number)
        answer, more = await ask(place, key if number % 2 else f"{key} {value}")
        assert answer == value, f"{key} has {answer}, and not {value}"
        attempts += more
    clients.remove(place.number)
    print(f"{place.now:6} ms: place {place.number} sent {attempts} requests for {requests} answers")


end = netlive.run(COMMAND, worker, worker, client, client, client)
print(f"{end.moment:6} ms: {end.word}, served {served[0]} and {served[1]}")
