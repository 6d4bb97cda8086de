"""An echo server and three clients, over a link that loses 6 % of the frames.

usage: python3 echo.py [COMMAND..], by default ./netlive examples/live/echo.world run
"""

import sys

import netlive


async def server(place):
    """Answers the calls one after the other."""
    listener = await place.announce("il!*!echo")
    for _ in range(3):
        call = await listener.listen()
        data = await call.accept()
        while text := await data.read():
            await data.write(text)
        await data.close()
        await call.close()


async def client(place):
    """Writes three messages, and prints when each answer comes."""
    await place.sleep(10)
    data = await place.dial("il!helix!echo")
    for number in range(3):
        before = place.now
        await data.write(f"message {number} of place {place.number}")
        text = await data.read()
        print(f"{place.now:6} ms: {text.decode()}, after {place.now - before} ms")
    await data.close()


end = netlive.run(sys.argv[1:] or ["./netlive", "examples/live/echo.world", "run"], server, client, client, client)
print(f"{end.moment:6} ms: {end.word}")
