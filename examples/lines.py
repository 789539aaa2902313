#!/usr/bin/env python3
"""Sends a text to a peer by the lines of turn_live (docs/rattle/LINES.md), prints the peer's answer, and ends.

The program is the one that the gate leaves in this repository, or that TURN_LIVE names.
"""
import argparse
import os
import pathlib
import secrets
import select
import socket
import subprocess
import sys
import time

BUILT = pathlib.Path(__file__).resolve().parent.parent / "crates" / "turn_live" / "out" / "turn_live"
parser = argparse.ArgumentParser(description=__doc__)
for name, what in (("server", "IP:PORT"), ("user", None), ("password", None), ("peer", "IP:PORT"), ("text", None)):
    parser.add_argument(name, help=what)
options = parser.parse_args()
host, _, port = options.server.rpartition(":")
sock = socket.socket(socket.AF_INET, socket.SOCK_DGRAM)
sock.connect((host, int(port)))
local, remote = ("%s:%d" % end for end in (sock.getsockname(), sock.getpeername()))
child = subprocess.Popen([os.environ.get("TURN_LIVE") or BUILT], stdin=subprocess.PIPE, stdout=subprocess.PIPE, text=True)
credentials = (text.encode().hex() or "-" for text in (options.user, options.password))
print("udp", local, remote, "udp 4 sha256,sha1 auto", *credentials, secrets.token_hex(32), file=child.stdin, flush=True)


def call(*words):
    print(time.monotonic_ns(), *words, file=child.stdin, flush=True)
    answer = child.stdout.readline()
    if not answer or answer.startswith(("bad ", "line ")):
        sys.exit(f"{words[0]}: {answer.strip() or 'no answer'}")
    return answer.split()


def answers(name):
    while (answer := call(name)) != ["none"]:
        yield answer


def send(answer):
    if answer[0] == "send":
        sock.send(bytes.fromhex(answer[4]))


is_answered = False
while True:
    due = call("poll")
    for event in answers("event"):
        print(*event, flush=True)
        if event[0] == "allocated":
            call("permit", "udp", options.peer.rpartition(":")[0])
        elif event[0] == "permitted":
            send(call("send", "udp", options.peer, options.text.encode().hex() or "-"))
    for packet in answers("transmit"):
        send(packet)
    if due[0] == "closed":
        sys.exit(None if is_answered else "the client has ended")
    wait = max(0, int(due[1]) - time.monotonic_ns()) / 1e9
    if select.select([sock], [], [], wait)[0]:
        answer = call("recv", "udp", remote, local, sock.recv(65536).hex() or "-")
        if answer[0] == "data":
            print("data from", answer[2], bytes.fromhex(answer[3].strip("-")).decode(errors="replace"), flush=True)
            is_answered = True
            call("delete")
