"""Runs a trace (docs/rattle/LINES.md) by `client.Client`, and gives the lines that turn_replay prints. No line is bad here."""
import ipaddress
from typing import Any, Callable, Dict, Iterator, List, Optional

from yarrowdoor import client as sans_io
from yarrowdoor.errors import Refused


def address(text: str) -> sans_io.Address:
    ip, _, port = text.rpartition(":")
    return sans_io.Address(ip_of(ip), int(port))


def ip_of(text: str) -> str:
    return str(ipaddress.IPv6Address(bytes.fromhex(text[1:-1]))) if text.startswith("[") else text


def shown_ip(ip: str) -> str:
    return f"[{ipaddress.ip_address(ip).packed.hex()}]" if ":" in ip else ip


def shown(where: sans_io.SocketAddress) -> str:
    return f"{shown_ip(where[0])}:{where[1]}"


def from_hex(text: str) -> bytes:
    return bytes.fromhex("" if text == "-" else text)


def to_hex(data: bytes) -> str:
    return bytes(data).hex() or "-"


def client_of(head: str) -> sans_io.Client:
    way, local, remote, relay, families, signs, hides, user, password, seed, *timing = head.split(" ")
    is_from_send = timing[-1:] == ["timed_from_send"]
    times = timing[:-1] if is_from_send else timing
    waits = [int(it) for it in times[0].split(",")] if times else []
    return sans_io.Client(
        address(local), address(remote), from_hex(user), from_hex(password), transport=way, allocation=relay,
        families=[int(it) for it in families.split(",")], algorithms=signs.split(","), anonymous=hides, seed=from_hex(seed),
        times=sans_io.Times(waits[0], waits[1], waits[3], waits[2]) if waits else None, timed_from_send=is_from_send,
    )


def shown_packet(packet: Optional[sans_io.Packet]) -> str:
    if packet is None:
        return "none"
    return f"send {packet.transport} {shown(packet.local)} {shown(packet.remote)} {to_hex(packet.data)}"


def shown_data(answer: Optional[sans_io.PeerData]) -> str:
    return "none" if answer is None else f"data {answer.transport} {shown(answer.peer)} {to_hex(answer.data)}"


def shown_poll(rest: sans_io.Poll) -> str:
    if isinstance(rest, sans_io.WaitUntil):
        return f"wait {rest.time}"
    if isinstance(rest, sans_io.AllocateTcpSocket):
        return f"socket {rest.id} {rest.transport} {shown(rest.local)} {shown(rest.remote)} {shown(rest.peer)}"
    return f"close {shown(rest.local)} {shown(rest.remote)}" if isinstance(rest, sans_io.TcpClose) else "closed"


def shown_received(answer: sans_io.Received) -> str:
    if isinstance(answer, sans_io.PeerData):
        return shown_data(answer)
    if isinstance(answer, sans_io.PeerIcmp):
        return f"icmp {answer.transport} {shown(answer.peer)} {answer.type} {answer.code} {answer.data}"
    return "handled" if isinstance(answer, sans_io.Handled) else "ignored"


EVENTS: Dict[type, Callable[[Any], str]] = {
    type(None): lambda it: "none",
    sans_io.AllocationCreated: lambda it: f"allocated {it.transport} {shown(it.address)}",
    sans_io.AllocationCreateFailed: lambda it: f"allocate-failed {it.family}",
    sans_io.PermissionCreated: lambda it: f"permitted {it.transport} {shown_ip(it.ip)}",
    sans_io.PermissionCreateFailed: lambda it: f"permit-failed {it.transport} {shown_ip(it.ip)}",
    sans_io.ChannelCreated: lambda it: f"bound {it.transport} {shown(it.peer)}",
    sans_io.ChannelCreateFailed: lambda it: f"bind-failed {it.transport} {shown(it.peer)}",
    sans_io.TcpConnected: lambda it: f"connected {shown(it.peer)}",
    sans_io.TcpConnectFailed: lambda it: f"connect-failed {shown(it.peer)}",
}


class Replay:
    def __init__(self, head: str) -> None:
        self.client = client_of(head)
        self.relay = head.split(" ")[3]

    def answer(self, line: str) -> str:
        now, name, *words = line.split(" ")
        try:
            return str(getattr(self, name)(int(now), *words) or "ok")
        except Refused as refusal:
            return f"refused {refusal.reason}" + (f" {refusal.until}" if refusal.reason == "expired" else "")

    def poll(self, now: int) -> str:
        return shown_poll(self.client.poll(now))

    def transmit(self, now: int) -> str:
        return shown_packet(self.client.poll_transmit(now))

    def event(self, now: int) -> str:
        event = self.client.poll_event()
        return EVENTS[type(event)](event)

    def recv(self, now: int, way: str, source: str, to: str, data: str) -> str:
        answer = self.client.recv(from_hex(data), now, transport=way, remote=address(source), local=address(to))
        return shown_received(answer)

    def poll_recv(self, now: int) -> str:
        return shown_data(self.client.poll_recv(now))

    def send(self, now: int, way: str, peer: str, data: str) -> str:
        return shown_packet(self.client.send_to(address(peer), from_hex(data), now, transport=way))

    def permit(self, now: int, way: str, ip: str) -> None:
        self.client.create_permission(ip_of(ip), now, transport=way)

    def bind(self, now: int, way: str, peer: str) -> None:
        self.client.bind_channel(address(peer), now, transport=way)

    def release(self, now: int, way: str, granted: str) -> None:
        self.set_kept(way, granted, False)

    def keep(self, now: int, way: str, granted: str) -> None:
        self.set_kept(way, granted, True)

    def set_kept(self, way: str, granted: str, is_kept: bool) -> None:
        """With a port it is a channel, else a permission. An IPv6 address has its digits in brackets, without a colon."""
        if ":" in granted:
            self.client.set_channel_kept(address(granted), is_kept, transport=way)
        else:
            self.client.set_permission_kept(ip_of(granted), is_kept, transport=way)

    def connect(self, now: int, peer: str) -> None:
        self.client.tcp_connect(address(peer), now)

    def socket(self, now: int, number: str, way: str, source: str, to: str, peer: str, local: str) -> None:
        wanted = sans_io.AllocateTcpSocket(int(number), way, address(source), address(to), address(peer))
        self.client.allocated_tcp_socket(wanted, None if local == "-" else address(local), now)

    def delete(self, now: int) -> None:
        self.client.delete(now)

    def closed(self, now: int, local: str, remote: str) -> None:
        self.client.tcp_closed(address(local), address(remote), now)

    def error(self, now: int) -> None:
        self.client.protocol_error()

    def relayed(self, now: int) -> str:
        return self.listed([f"{it.transport} {shown(it.address)}" for it in self.client.relayed_addresses()])

    def permissions(self, now: int, way: str, relayed: str) -> str:
        return self.listed([shown_ip(it) for it in self.client.permissions(address(relayed), transport=way)])

    def have(self, now: int, way: str, ip: str) -> str:
        return "yes" if self.client.have_permission(ip_of(ip), transport=way) else "no"

    def listed(self, words: List[str]) -> str:
        return " ".join([f"list {len(words)}", *words])


def replay(trace: str) -> Iterator[str]:
    """The answers to a trace, a line each."""
    head, *calls = trace.rstrip("\n").split("\n")
    client = Replay(head)
    for line in calls:
        yield client.answer(line)
