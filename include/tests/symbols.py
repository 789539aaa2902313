"""usage: symbols.py LIBRARY JSON NAMES

Calls each typed function of the shared library by its name, through ctypes alone, as a language does that finds functions at run
time: the structs are made from JSON, which is made from the header. The exchange and its answers are those of docs/rattle/LINES.md.
Each name of the file NAMES but yarrowdoor_call and yarrowdoor_look has to be called.
"""
import ctypes
import pathlib
import sys

from loaded import load

RECEIVED = [bytes.fromhex(it) for it in (
    "011300202112a44276b8e0ada0f13d90405d6ae50009000400000401001400057265616c6d000000001500056e6f6e6365000000",
    "0103002c2112a4425386bd28bdd219b8a08ded1a001600080001bd522b12a446000d0004000003e80008001473ab3a7f1f80782b83e3ea333b6d47"
    "e608f296b7",
    "010800182112a442a836efcc8b770dc7da41597c0008001424ee99d3ec7817ac7661800a0728cdc5de955997",
    "001700182112a442000000000000000000000001001200080001023a2b12a4410013000568656c6c6f000000",
)]
CALLED = set()

library, said, N, made = load(sys.argv[1], sys.argv[2])
Address, Settings, Answer, Message, Load = (made[f"yarrowdoor_{it}"] for it in ("address", "settings", "answer", "message", "load"))


def call(name, *args):
    """Calls a function of the library."""
    CALLED.add(f"yarrowdoor_{name}")
    return getattr(library, f"yarrowdoor_{name}")(*args)


def check(what, found, want):
    assert found == want, f"{what}: {found}, not {want}"


def u64(value):
    return ctypes.c_uint64(value)


def ipv4(text, port):
    parts = [ctypes.c_uint8(int(it)) for it in text.split(".")]
    return call("ipv4", *parts, ctypes.c_uint16(port))


PLACES = ("192.168.0.1", 1000), ("10.0.0.2", 2000), ("10.0.0.3", 9000), ("10.0.0.4", 40000)
local, remote, peer, relayed = (ipv4(*it) for it in PLACES)
client, answer, buffer = ctypes.c_void_p(), Answer(), (ctypes.c_uint8 * 1500)()
ref, room = ctypes.byref, (buffer, ctypes.c_size_t(1500))


def recv(packet, now, transport=0):
    data = RECEIVED[packet] if isinstance(packet, int) else packet
    return call("recv", client, transport, ref(remote), ref(local), data, ctypes.c_size_t(len(data)), u64(now), *room, ref(answer))


def transmit(now):
    found = call("poll_transmit", client, u64(now), *room, ref(answer))
    return found, bytes(buffer[: answer.len])


def exchange():
    """The exchange of docs/rattle/LINES.md: an allocation, a permission, and data both ways."""
    check("poll_transmit", transmit(0)[0], N.PACKET)
    check("recv", recv(0, 0), N.HANDLED)
    found, sent = transmit(50_000_000)
    check("poll_transmit", (found, sent[:2], sent[8:20]), (N.PACKET, b"\0\3", RECEIVED[1][8:20]))
    check("recv", recv(1, 50_000_000), N.HANDLED)
    check("poll_event", call("poll_event", client, ref(answer)), N.ALLOCATION_CREATED)
    check("is_same_address", call("is_same_address", ref(answer.peer), ref(relayed)), 1)
    check("is_same_address", call("is_same_address", ref(answer.peer), ref(peer)), 0)
    check("have_permission", call("have_permission", client, 0, ref(peer), ref(answer)), N.NO)
    check("create_permission", call("create_permission", client, 0, ref(peer), u64(50_000_000), ref(answer)), N.DONE)
    check("poll_transmit", transmit(100_000_000)[0], N.PACKET)
    check("recv", recv(2, 100_000_000), N.HANDLED)
    check("poll_event", call("poll_event", client, ref(answer)), N.PERMISSION_CREATED)
    check("have_permission", call("have_permission", client, 0, ref(peer), ref(answer)), N.YES)
    check("recv", (recv(3, 100_000_000), answer.start, answer.len), (N.PEER_DATA_RANGE, 36, 5))
    sent = call("send_to", client, 0, ref(peer), b"hello", ctypes.c_size_t(5), u64(100_000_000), *room, ref(answer))
    packet = bytes(buffer[: answer.len])
    check("send_to", (sent, packet[:2], b"hello" in packet), (N.PACKET, b"\0\x16", True))
    sent = call("send_head", client, 0, ref(peer), ctypes.c_size_t(5), u64(100_000_000), *room, ref(answer))
    check("send_head", (sent, answer.len, answer.start), (N.PACKET, 36, 3))
    # each send has a transaction ID of its own
    check("send_head", bytes(buffer[:8]) + packet[8:20] + bytes(buffer[20:36]) + b"hello\0\0\0", packet)


def others():
    """The other calls, as far as a client over UDP has them."""
    now = u64(100_000_000)
    check("relayed_address", call("relayed_address", client, 0, ref(answer)), N.ADDRESS)
    check("relayed_address", call("is_same_address", ref(answer.peer), ref(relayed)), 1)
    check("relayed_address", call("relayed_address", client, 1, ref(answer)), N.NOTHING)
    check("permission", call("permission", client, 0, ref(relayed), 0, ref(answer)), N.ADDRESS)
    check("permission", (bytes(answer.peer.ip[:4]), answer.peer.port), (bytes((10, 0, 0, 3)), 0))
    check("next_permission", call("next_permission", client, 0, ref(relayed), 0, ref(answer)), N.ADDRESS)
    check("next_permission", (bytes(answer.peer.ip[:4]), answer.peer.port), (bytes((10, 0, 0, 3)), 0))
    check("next_permission", call("next_permission", client, 0, ref(relayed), answer.id, ref(answer)), N.NOTHING)
    check("set_permission_kept", call("set_permission_kept", client, 0, ref(peer), 0, ref(answer)), N.DONE)
    check("set_permission_kept", call("set_permission_kept", client, 0, ref(peer), 2, ref(answer)), N.BAD_CALL)
    check("set_channel_kept", call("set_channel_kept", client, 0, ref(peer), 1, ref(answer)), N.REFUSED)
    check("error_name", call("error_name", answer.error), b"NOT_GRANTED")
    check("bind_channel", call("bind_channel", client, 0, ref(peer), now, ref(answer)), N.DONE)
    check("set_channel_kept", call("set_channel_kept", client, 0, ref(peer), 0, ref(answer)), N.DONE)
    check("tcp_connect", call("tcp_connect", client, ref(peer), now, ref(answer)), N.REFUSED)
    socket = call("allocated_tcp_socket", client, 1, 1, ref(local), ref(remote), ref(peer), None, now, ref(answer))
    check("allocated_tcp_socket", (socket, answer.error), (N.REFUSED, N.ERROR_NO_ALLOCATION))
    check("tcp_closed", call("tcp_closed", client, ref(local), ref(remote), now, ref(answer)), N.DONE)
    check("poll_recv", call("poll_recv", client, now, *room, ref(answer)), N.NOTHING)
    check("read", (call("read", client, *room, ref(answer)), answer.len), (N.BYTES, 0))
    check("delete", call("delete", client, now, ref(answer)), N.DONE)
    check("poll", call("poll", client, now, ref(answer)), N.WAIT_UNTIL)
    given_up = call("abandon", client, now, *room, ref(answer))
    check("abandon", (given_up, bytes(buffer[:2])), (N.PACKET, b"\0\4"))
    check("protocol_error", call("protocol_error", client, ref(answer)), N.DONE)
    check("poll", call("poll", client, now, ref(answer)), N.CLOSED)
    check("kind_name", call("kind_name", answer.kind), b"CLOSED")


def without_a_client():
    """What needs no client: hints, the version, and the symbol of the layout."""
    message, start, size = Message(), ctypes.c_size_t(), ctypes.c_size_t()
    packet = RECEIVED[0]
    check("read_message", call("read_message", 0, packet, ctypes.c_size_t(len(packet)), ref(message)), N.MESSAGE)
    check("read_message", (message.code, message.method, bytes(message.id)), (401, 3, packet[8:20]))
    check("read_message", packet[message.realm_at : message.realm_at + message.realm_len], b"realm")
    check("read_attribute", call("read_attribute", packet, ctypes.c_size_t(len(packet)), 0x15, ref(start), ref(size)), N.YES)
    check("read_attribute", packet[start.value : start.value + size.value], b"nonce")
    # a request each 52 ms within 60 s less 452 ms: 1,145, one of which is queued beside
    load = Load(late=2_000_000, delay=450_000_000, slots=1, extras=0)
    check("kept_grants", call("kept_grants", ref(load), u64(0), u64(0)), 1144)
    check("longest_cadence", call("longest_cadence", ref(load), u64(1144), u64(0)) >= 50_000_000, True)
    check("longest_cadence", call("longest_cadence", ref(load), u64(1145), u64(0)) < 50_000_000, True)
    major, minor, patch = map(int, said["version"].split("."))
    check("version", call("version"), major << 16 | minor << 8 | patch)
    check("abi_0", ctypes.c_uint32.in_dll(library, "yarrowdoor_abi_0").value, 0)
    check("0_1", ctypes.c_uint32.in_dll(library, "yarrowdoor_0_1").value, 0)
    call("free", None)


without_a_client()
settings = call("settings_of", 0, ref(local), ref(remote))
usual = settings.max_stale_nonces, settings.family, settings.request_cadence, settings.timed_from_send
check("settings_of", usual, (256, 4, 5_000_000, 1))
user, password = (b"user", ctypes.c_size_t(4)), (b"pass", ctypes.c_size_t(4))
check("new", call("new", ref(settings), *user, *password, bytes(32), ctypes.c_size_t(32), ref(client)), 0)
exchange()
others()
call("free", client)
names = pathlib.Path(sys.argv[3]).read_text().split()
missing = set(names) - CALLED - {"yarrowdoor_call", "yarrowdoor_look", "yarrowdoor_abi_0", "yarrowdoor_0_1"}
assert not missing, f"not called: {missing}"
print(f"symbols: {len(CALLED)} functions called")
