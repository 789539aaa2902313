"""usage: wrong_password.py LIBRARY JSON HOST PORT USER PASSWORD

Asks a TURN server over UDP for an allocation, by ctypes alone, and prints after how many milliseconds it is told that the user name
or the password is wrong: the server answers a signed request with 401. Ends with 0 only where that takes less than a second.
"""
import ctypes
import os
import socket
import sys
import time

from loaded import load

library, said, N, made = load(sys.argv[1], sys.argv[2])
Answer, Message = made["yarrowdoor_answer"], made["yarrowdoor_message"]
ref = ctypes.byref
START = time.monotonic_ns()
client, answer, buffer = ctypes.c_void_p(), Answer(), (ctypes.c_uint8 * 1500)()
room = (buffer, ctypes.c_size_t(len(buffer)))


def now():
    return ctypes.c_uint64(time.monotonic_ns() - START)


def address(host, port):
    return library.yarrowdoor_ipv4(*(ctypes.c_uint8(int(it)) for it in host.split(".")), ctypes.c_uint16(port))


def make_client(local, remote, user, password):
    settings = library.yarrowdoor_settings_of(N.UDP, ref(local), ref(remote))
    texts = (user, ctypes.c_size_t(len(user)), password, ctypes.c_size_t(len(password)), os.urandom(32), ctypes.c_size_t(32))
    made_it = library.yarrowdoor_new(ref(settings), *texts, ref(client))
    assert made_it == 0, made_it


def send_due(link):
    while library.yarrowdoor_poll_transmit(client, now(), *room, ref(answer)) == N.PACKET:
        link.send(bytes(buffer[: answer.len]))


def wait(link):
    """The next packet of the server, or None when the client has something to do."""
    kind = library.yarrowdoor_poll(client, now(), ref(answer))
    assert kind == N.WAIT_UNTIL, library.yarrowdoor_kind_name(kind)
    link.settimeout(max((answer.time - now().value) / 1e9, 0.001))
    try:
        return link.recv(65536)
    except TimeoutError:
        return None


def challenged(packet):
    """The ID of the request that this packet answers with 401, or None."""
    message = Message()
    kind = library.yarrowdoor_read_message(N.UDP, packet, ctypes.c_size_t(len(packet)), ref(message))
    return bytes(message.id) if kind == N.MESSAGE and message.code == 401 else None


def main(host, port, user, password):
    link = socket.socket(socket.AF_INET, socket.SOCK_DGRAM)
    link.connect((host, port))
    local, remote = address(*link.getsockname()), address(host, port)
    make_client(local, remote, user.encode(), password.encode())
    ids = set()
    while library.yarrowdoor_poll_event(client, ref(answer)) == N.NOTHING:
        send_due(link)
        packet = wait(link)
        if packet is None:
            continue
        ids |= {challenged(packet)} - {None}
        if len(ids) > 1:  # the second is to a signed request
            took = now().value // 1_000_000
            print(f"ctypes: {took} ms until a wrong user name or password is named")
            return 0 if took < 1000 else 1
        given = packet, ctypes.c_size_t(len(packet))
        library.yarrowdoor_recv(client, N.UDP, ref(remote), ref(local), *given, now(), *room, ref(answer))
    print(library.yarrowdoor_kind_name(answer.kind).decode())
    return 1


status = main(sys.argv[3], int(sys.argv[4]), sys.argv[5], sys.argv[6])
library.yarrowdoor_free(client)
sys.exit(status)
