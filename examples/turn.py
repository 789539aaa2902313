#!/usr/bin/env python3
"""Sends a text to a peer through a TURN server, and prints what comes back, until Ctrl-C."""
import argparse
import asyncio
import ssl

from yarrowdoor import TurnClient


async def main(options: argparse.Namespace) -> None:
    uri = f"turn{'s' * options.tls}:{options.server}?transport={'tcp' if options.tcp or options.tls else 'udp'}"
    context = ssl.create_default_context(cafile=options.ca) if options.tls else None
    ip, _, port = options.peer.rpartition(":")
    family = 6 if ":" in ip else 4
    async with TurnClient(uri, options.user, options.password, ssl=context, family=family) as relay:
        print("relayed at", *relay.address, flush=True)
        await relay.send(options.text.encode(), (ip.strip("[]"), int(port)))
        async for data, peer in relay:
            print("data from", *peer, data.decode(errors="replace"), flush=True)


if __name__ == "__main__":
    parser = argparse.ArgumentParser(description=__doc__)
    parser.add_argument("--tcp", action="store_true", help="reach the server over TCP")
    parser.add_argument("--tls", action="store_true", help="reach the server over TLS")
    parser.add_argument("--ca", help="with --tls: a file of certificates to trust, instead of the system's")
    for name, what in (("server", "HOST:PORT"), ("user", None), ("password", None), ("peer", "IP:PORT"), ("text", None)):
        parser.add_argument(name, help=what)
    try:
        asyncio.run(main(parser.parse_args()))
    except KeyboardInterrupt:
        pass  # the relayed address is deleted
