#!/usr/bin/env python3
"""Sends a file to a peer over TCP, through a TURN server that is reached over TLS or TCP (RFC 6062).

    send_file.py take PORT FILE                     waits for one file on a TCP port, and writes it to FILE
    send_file.py send URI USER PASSWORD PEER FILE   sends FILE to the peer IP:PORT; URI is turns:HOST, or turn:HOST?transport=tcp

A server may end a stream by a reset, so its end says nothing: first comes the length in 8 bytes, and the peer answers each piece
by how much it has got, and the whole by its SHA-256. That also keeps what is under way small: coturn over TLS may stop
reading where megabytes are.
"""
import argparse
import asyncio
import hashlib
import os
import ssl
import sys

from yarrowdoor import TurnClient

PIECE = 65536


async def send(options: argparse.Namespace) -> None:
    context = ssl.create_default_context(cafile=options.ca) if options.uri.startswith("turns:") else None
    ip, _, port = options.peer.rpartition(":")
    with open(options.file, "rb") as file:
        size, summed = os.fstat(file.fileno()).st_size, hashlib.sha256()
        async with TurnClient(options.uri, options.user, options.password, relay="tcp", ssl=context) as relay:
            reader, writer = await relay.connect((ip, int(port)))
            writer.write(size.to_bytes(8, "big"))
            while piece := file.read(PIECE):
                summed.update(piece)
                writer.write(piece)
                if int.from_bytes(await reader.readexactly(8), "big") != file.tell():
                    sys.exit("the peer has not got all")
            if await reader.readexactly(32) != summed.digest():
                sys.exit("the peer has got something else")
    print(f"sent {size} bytes, SHA-256 {summed.hexdigest()}")


async def take(options: argparse.Namespace) -> None:
    done = asyncio.get_running_loop().create_future()

    async def write_to_file(reader: asyncio.StreamReader, writer: asyncio.StreamWriter) -> None:
        head = await reader.read(8)
        if not head:
            return writer.close()  # somebody only looked whether this port is open
        head += await reader.readexactly(8 - len(head))
        size, summed = int.from_bytes(head, "big"), hashlib.sha256()
        with open(options.file, "wb") as file:
            while file.tell() < size:
                piece = await reader.readexactly(min(PIECE, size - file.tell()))
                file.write(piece)
                summed.update(piece)
                writer.write(file.tell().to_bytes(8, "big"))
        writer.write(summed.digest())
        await writer.drain()
        writer.close()
        done.set_result(f"took {size} bytes, SHA-256 {summed.hexdigest()}")

    async with await asyncio.start_server(write_to_file, "0.0.0.0", options.port):
        print(await done)


if __name__ == "__main__":
    parser = argparse.ArgumentParser(description=__doc__.splitlines()[0])
    ways = parser.add_subparsers(dest="way", required=True)
    sender, taker = ways.add_parser("send"), ways.add_parser("take")
    sender.add_argument("--ca", help="a file of certificates to trust, instead of the system's")
    for name in ("uri", "user", "password", "peer", "file"):
        sender.add_argument(name)
    taker.add_argument("port", type=int)
    taker.add_argument("file")
    options = parser.parse_args()
    asyncio.run((send if options.way == "send" else take)(options))
