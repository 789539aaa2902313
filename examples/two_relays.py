#!/usr/bin/env python3
"""Sends a text from one relayed address to another, which sends it back: as two clients behind NATs do.

The two clients are in one program here. In yours, each tells the other its address by another way, such as a web server.
"""
import argparse
import asyncio

from yarrowdoor import TurnClient


async def answer(bob: TurnClient) -> None:
    async for data, peer in bob:
        await bob.send(data, peer)


async def main(options: argparse.Namespace) -> None:
    server = options.uri, options.user, options.password
    async with TurnClient(*server) as alice, TurnClient(*server) as bob:
        print(f"alice at {alice.address}, bob at {bob.address}")
        await bob.permit(alice.address[0])  # else the server drops what comes from alice
        answering = asyncio.ensure_future(answer(bob))
        await alice.send(options.text.encode(), bob.address)
        data, peer = await asyncio.wait_for(alice.receive(), 5)
        print(f"alice got {data.decode()} from {peer}")
        answering.cancel()


if __name__ == "__main__":
    parser = argparse.ArgumentParser(description=__doc__.splitlines()[0])
    parser.add_argument("uri", help="of the server, such as turn:127.0.0.1:3478 or turns:turn.example.org")
    for name in ("user", "password", "text"):
        parser.add_argument(name)
    asyncio.run(main(parser.parse_args()))
