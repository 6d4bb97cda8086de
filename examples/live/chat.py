"""A chat server with three clients, over a link that loses 6 % of the frames. The server has a place for each client.

usage: python3 chat.py [COMMAND..], by default ./netlive examples/live/chat.world run
"""

import asyncio
import sys

import netlive

NAMES = {3: "anna", 4: "bootes", 5: "carme"}
announced, members = asyncio.Event(), set()


async def serve(place):
    """Takes one call, and passes on what its client says: it opens the data file of each other conversation."""
    if place.number == 0:
        await place.announce("il!*!chat")
        announced.set()
    await announced.wait()
    call = await place.open("/net/il/0/listen")
    number = (await call.read()).decode()
    async with call, await call.accept() as data:
        members.add(number)
        while text := await data.read():
            for member in sorted(members - {number}):
                async with await place.open(f"/net/il/{member}/data", "w") as other:
                    await other.write(text)
        members.remove(number)


async def hear(place, data, ms):
    """Prints what the others say during this time."""
    end = place.now + ms
    while place.now < end:
        try:
            text = await data.read(timeout=end - place.now)
        except TimeoutError:
            break
        print(f"{place.now:6} ms: {NAMES[place.number]} hears {text.decode()}")


async def client(place):
    """Says two sentences, and hears the others in the meantime."""
    await place.sleep(100 * place.number)
    async with await place.dial("il!helix!chat") as data:
        for text in ("hello", "good bye"):
            await hear(place, data, 1000)
            await data.write(f"{NAMES[place.number]}: {text}")
        await hear(place, data, 2000)


end = netlive.run(sys.argv[1:] or ["./netlive", "examples/live/chat.world", "run"], serve, serve, serve, client, client, client)
print(f"{end.moment:6} ms: {end.word}")
