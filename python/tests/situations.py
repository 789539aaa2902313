"""Situations of a TURN server that operators have, in network namespaces: what is set up, and what a check is to say of it.

    python3 -m tests.situations NAME      in namespaces as `SETUP` makes them: prints the object of JSON of the check
"""
import contextlib
import json
import os
import pathlib
import signal
import subprocess
import sys
import time
from dataclasses import dataclass, field
from typing import Any, Dict, Iterator, List, Optional, Sequence, Tuple

from .coturn import places, wait_for
from .turn_servers import limit

TOP = pathlib.Path(__file__).resolve().parent.parent
# A client at 45.10.0.2, a router, in `rtr`, and in `srv` a server at 45.20.0.2, 45.20.0.3 and 10.1.0.2, all with IPv6.
SETUP = """
    mount -t tmpfs none /run && ip netns add rtr && ip netns add srv && ip link set lo up &&
    ip -n rtr link set lo up && ip -n srv link set lo up &&
    ip netns exec rtr sysctl -qw net.ipv4.ip_forward=1 net.ipv6.conf.all.forwarding=1 net.ipv4.conf.all.rp_filter=0 \
        net.ipv4.conf.default.rp_filter=0 && ip netns exec srv sysctl -qw net.ipv4.conf.all.rp_filter=0 &&
    ip link add c0 type veth peer name c1 netns rtr && ip -n srv link add s0 type veth peer name s1 netns rtr &&
    ip addr add 45.10.0.2/24 dev c0 && ip addr add 2a00:1450:10::2/64 dev c0 nodad &&
    ip -n rtr addr add 45.10.0.1/24 dev c1 && ip -n rtr addr add 2a00:1450:10::1/64 dev c1 nodad &&
    ip -n rtr addr add 45.20.0.1/24 dev s1 && ip -n rtr addr add 10.1.0.1/24 dev s1 &&
    ip -n rtr addr add 2a00:1450:20::1/64 dev s1 nodad && ip -n rtr addr add 45.30.0.2/32 dev lo &&
    ip -n srv addr add 45.20.0.2/24 dev s0 && ip -n srv addr add 45.20.0.3/24 dev s0 && ip -n srv addr add 10.1.0.2/24 dev s0 &&
    ip -n srv addr add 2a00:1450:20::2/64 dev s0 nodad &&
    ip link set c0 up && ip -n rtr link set c1 up && ip -n rtr link set s1 up && ip -n srv link set s0 up &&
    ip route add default via 45.10.0.1 && ip -6 route add default via 2a00:1450:10::1 &&
    ip -n srv route add default via 45.20.0.1 && ip -n srv -6 route add default via 2a00:1450:20::1 &&
    echo 127.0.0.1 localhost > /run/hosts && echo 45.20.0.2 turn.example.org two.example.org dead.example.org >> /run/hosts &&
    echo 45.20.0.3 two.example.org >> /run/hosts && echo 45.20.0.9 dead.example.org >> /run/hosts &&
    echo hosts: files > /run/nsswitch &&
    mount --bind /run/hosts /etc/hosts &&
    mount --bind /run/nsswitch /etc/nsswitch.conf
"""
URI, TCP, TLS = "turn:45.20.0.2", "turn:45.20.0.2?transport=tcp", "turns:turn.example.org --ca {certs}/root.pem"
BLOCKS = ("169.254.0.0-169.254.255.255", "0.0.0.0-0.255.255.255", "10.0.0.0-10.255.255.255", "172.16.0.0-172.31.255.255",
          "192.168.0.0-192.168.255.255", "100.64.0.0-100.127.255.255")
DENIED = tuple(word for it in BLOCKS for word in ("--denied-peer-ip", it))
NAT = ("--external-ip", "45.30.0.2/10.1.0.2")


@dataclass(frozen=True)
class Situation:
    """What is set up, what is asked, and what is to be said."""

    step: str
    """the step that says it, or nothing where no step may fail"""
    said: Sequence[str] = ()
    """what stands in its sentences"""
    outcome: str = "failed"
    status: int = 1
    words: str = URI
    coturn: Optional[Sequence[str]] = ()
    """options of the server, or none where there is no such server"""
    at: str = "45.20.0.2"
    """its address"""
    tls: str = ""
    """its certificate"""
    odd: Sequence[str] = ()
    """the words of an odd server, beside it"""
    pion: Sequence[str] = ()
    """the words of a server of pion, in place of coturn"""
    rules: Dict[str, Sequence[str]] = field(default_factory=dict)
    """by namespace, chains of nftables, each with its hook first"""
    is_own: bool = False
    """whether the client is in the server's namespace"""
    hangs: bool = False
    env: Dict[str, str] = field(default_factory=lambda: {"YARROWDOOR_PASSWORD": "pass", "YARROWDOOR_USER": "user"})
    seconds: float = 0.0
    """how long the check may take on a machine that does nothing else, or any time"""
    is_alone: bool = False
    """whether no other step may fail"""


def drop(rule: str) -> Sequence[str]:
    return (f"input filter 0 {rule}",)


def forward(*rules: str) -> Dict[str, Sequence[str]]:
    return {"rtr": (f"forward filter 0 {' ; '.join(rules)}",)}


def nat(*source: str) -> Dict[str, Sequence[str]]:
    """A 1:1 NAT of 45.30.0.2 before the server, and further rules for what leaves."""
    return {"rtr": ("prerouting nat -100 ip daddr 45.30.0.2 dnat ip to 10.1.0.2",
                    f"postrouting nat 100 {' ; '.join([*source, 'ip saddr 10.1.0.2 snat ip to 45.30.0.2'])}")}


ALL: Dict[str, Situation] = {
    # What works
    "good": Situation("", (), "", 0, "turn:turn.example.org --ca {certs}/root.pem", tls="good"),
    "good over TLS": Situation("", (), "", 0, TLS, tls="good"),
    "good over IPv6": Situation("", (), "", 0, "turn:[2a00:1450:20::2]",
                                ("-L", "2a00:1450:20::2", "-E", "45.20.0.2", "-E", "2a00:1450:20::2")),
    "relay at another address": Situation("", (), "", 0, coturn=("-E", "45.20.0.3")),
    "relay over IPv6 only": Situation("", (), "", 0, coturn=("-L", "2a00:1450:20::2", "-E", "2a00:1450:20::2")),
    "NAT that is right": Situation("", (), "", 0, "turn:45.30.0.2", NAT, "10.1.0.2", rules=nat()),
    "NAT of the port of TURN": Situation("", (), "", 0, rules={
        "rtr": ("postrouting nat 100 oifname s1 udp dport 3478 snat ip to 45.20.0.1",)}),
    "nonces of a second": Situation("", (), "", 0, coturn=("--stale-nonce=1",)),
    "a little loss": Situation("", (), "", 0, rules=forward("numgen random mod 1000 < 3 drop")),
    "the first packets from outside are lost": Situation("", (), "", 0, rules=forward(
        "iifname c1 udp dport 49152-65535 limit rate 3/hour burst 3 packets drop")),
    "the first packets to outside are lost": Situation("", (), "", 0, rules=forward(
        "iifname s1 udp sport 49152-65535 limit rate 3/hour burst 3 packets drop")),
    "far away": Situation("", (), "", 0, odd=("rtr", "slow", "-", "150"), seconds=4.0),
    # Peers outside
    "relay ports closed": Situation("outside", ("lets in the port of TURN and not the relay ports",),
                                    rules={"srv": drop("iifname s0 udp dport 49152-65535 drop")}),
    "some relay ports closed": Situation("outside", ("a part of the relay ports", "3 of 3", "0 of 3"),
                                         coturn=("--min-port", "50000", "--max-port", "50001"),
                                         rules=forward("iifname c1 udp dport 50001 drop")),
    "relay egress closed": Situation("outside", ("egress",), rules=forward("iifname s1 udp sport 49152-65535 drop")),
    "external address of another host": Situation("outside", ("comes from 45.20.0.2", "external-ip="),
                                                  coturn=("--external-ip", "45.99.0.1")),
    "one port forwarded": Situation(
        "outside", ("forwards only that port",), "failed", 1, "turn:45.30.0.2", NAT, "10.1.0.2",
        rules={"rtr": ("prerouting nat -100 ip daddr 45.30.0.2 meta l4proto {{ tcp, udp }} th dport 3478 dnat ip to 10.1.0.2",
                       "postrouting nat 100 ip saddr 10.1.0.2 snat ip to 45.30.0.2")}),
    "own host": Situation("outside", ("this host is the server's", "another host"), "note", 0, is_own=True),
    "own address denied": Situation("permission", ("refuses its own relayed address 45.20.0.2", "allowed-peer-ip=45.20.0.2"),
                                    "note", 0, coturn=("--denied-peer-ip", "45.20.0.2")),
    "all peers denied": Situation("permission", ("refuses 45.20.0.2",), coturn=("--denied-peer-ip", "0.0.0.0-255.255.255.255")),
    "private address": Situation("allocation", ("private", "external-ip="), "failed", 1, "turn:45.30.0.2",
                                 ("--external-ip", "45.30.0.2/10.1.0.3"), "10.1.0.2", rules=nat()),
    "balancer with its own address": Situation("mapped", ("10.1.0.1", "balancer"), "failed", 1, "turn:45.30.0.2", NAT, "10.1.0.2",
                                               rules=nat("oifname s1 ip saddr 45.10.0.2 snat to 10.1.0.1")),
    # Limits
    "no UDP relay": Situation("allocation", ("no-udp-relay",), coturn=("--no-udp-relay",)),
    "user quota": Situation("allocation-2", ("user-quota=", "total-quota="), coturn=("--user-quota", "1")),
    "total quota": Situation("limit", ("total-quota=", "Allocation Quota Reached"), coturn=("--total-quota", "2")),
    "bandwidth of a session": Situation("messages", ("max-bps=",), coturn=("--max-bps", "4000")),
    "bandwidth of all": Situation("limit", ("bps-capacity=",), coturn=("--max-bps", "100000", "--bps-capacity", "150000")),
    "one relay port": Situation("allocation-2", ("min-port=",), coturn=("--min-port", "50000", "--max-port", "50000")),
    "strict policer": Situation("messages", ("limit of rate",), rules=forward(
        "udp sport 3478 meta length > 150 limit rate over 5/second burst 1 packets drop")),
    "policer": Situation("messages", ("limit of rate",), rules=forward("udp sport 3478 limit rate over 50/second drop")),
    "limit of flows": Situation("flows", ("new flows",),
                                rules=forward("iifname c1 udp dport 3478 ct state new limit rate over 3/minute burst 3 packets "
                                              "drop")),
    "much loss": Situation("channels", ("crossings", "--max-loss"), rules=forward("numgen random mod 1000 < 50 drop")),
    "loss over TCP": Situation("messages", ("TCP has sent", "the network on the way has lost"), "ok", 0, TCP,
                               rules=forward("meta l4proto tcp numgen random mod 1000 < 50 drop")),
    "small MTU": Situation("payload", ("small MTU",), rules=forward("meta length > 1200 drop")),
    # Doors
    "rejected by the server": Situation("udp", ("45.20.0.2 itself rejects UDP 3478", "firewall-cmd"),
                                        rules={"srv": drop("iifname s0 meta l4proto {{ tcp, udp }} reject with icmp type "
                                                           "host-prohibited")}),
    "rejected over UDP": Situation("udp", ("45.20.0.2 itself rejects UDP 3478", "use turn:45.20.0.2:3478?transport=tcp"),
                                   rules={"srv": drop("iifname s0 udp dport 3478 reject with icmp type host-prohibited")}),
    "rejected by a router": Situation("udp", ("45.10.0.1, on the way to 45.20.0.2, rejects",),
                                      rules=forward("iifname c1 udp dport 3478 reject with icmp type admin-prohibited")),
    "no route at a router": Situation("udp", ("45.10.0.1, on the way to 45.20.0.2, has no way",),
                                      rules=forward("iifname c1 meta l4proto {{ tcp, udp }} reject with icmp type "
                                                    "net-unreachable")),
    "rejected here": Situation("udp", ("A firewall of this host itself", "use turn:45.20.0.2:3478?transport=tcp"), "untried", 2,
                               rules={"": ("output filter 0 udp dport 3478 drop",)}),
    "rejected here by ICMP": Situation("udp", ("A firewall of this host itself",), "untried", 2, rules={
        "": ("output filter 0 meta l4proto {{ tcp, udp }} th dport 3478 reject",)}),
    "ALLOCATE dropped": Situation("challenge", ("lets only STUN through",),
                                  rules=forward("iifname c1 udp dport 3478 @th,64,16 0x0003 drop")),
    "indications dropped": Situation("indications", ("Channels pass, and messages do not",),
                                     rules=forward("iifname c1 udp dport 3478 @th,64,16 0x0016 drop")),
    "ChannelData dropped": Situation("channels", ("drops ChannelData messages",),
                                     rules=forward("iifname c1 udp dport 3478 @th,64,2 1 drop")),
    "CHANNEL_BIND dropped": Situation("channel", ("a firewall on the way that looks into TURN",),
                                      rules=forward("iifname c1 udp dport 3478 @th,64,16 0x0009 drop")),
    "fragments dropped": Situation("payload", ("bytes pass",), "ok", 0, rules=forward("ip frag-off & 0x1fff != 0 drop")),
    "reset after data": Situation("allocation", ("ended it",), words=TCP, rules=forward(
        "iifname c1 tcp dport 3478 ct original packets > 4 reject with tcp reset")),
    "no further connection": Situation("connection", ("was not made in time",), rules=forward(
        "iifname c1 tcp dport 3478 ct state new limit rate over 1/minute burst 1 packets drop")),
    "unusual letters": Situation("", (), "", 0, coturn=("-u", "jörg:pä:ss wörd"),
                                 env={"YARROWDOOR_PASSWORD": "pä:ss wörd", "YARROWDOOR_USER": "jörg"}),
    "UDP dropped": Situation("udp", ("is blocked, and TCP is open",), rules={"srv": drop("iifname s0 udp dport 3478 drop")}),
    "all dropped": Situation("udp", ("Nothing comes back from 45.20.0.2", "--timeout"),
                             rules={"srv": drop("iifname s0 meta l4proto {{ tcp, udp }} th dport 3478 drop")}),
    "no TCP": Situation("tcp", ("UDP answers there", "turn:45.20.0.2:3478"), words=TCP, coturn=("--no-tcp",)),
    "TLS only": Situation("udp", ("use turns:turn.example.org",), "failed", 1, "turn:turn.example.org --ca {certs}/root.pem",
                          tls="good",
                          rules={"srv": drop("tcp dport 3478 reject with tcp reset ; udp dport 3478 reject")}),
    "TLS at a plain port": Situation("tls", ("speaks plain TCP and no TLS",), words=TLS.replace(".org", ".org:3478")),
    "TCP at a port of TLS": Situation("tcp", ("is a port of TLS", "turns:"), words="turn:45.20.0.2:3479?transport=tcp", coturn=None,
                                      odd=("srv", "tls", "45.20.0.2", "3479", "{certs}/good.pem", "{certs}/good.key")),
    "loopback only": Situation("udp", ("Nothing listens at 45.20.0.2",), at="127.0.0.1"),
    "another address answers": Situation(
        "udp", ("answers from 45.20.0.3",), rules={"srv": (
            "prerouting filter -300 ip saddr 45.10.0.2 udp dport 3478 notrack",
            "output filter -300 ip daddr 45.10.0.2 udp sport 3478 notrack ; "
            "ip daddr 45.10.0.2 udp sport 3478 ip saddr set 45.20.0.3")}),
    "another port answers": Situation("udp", ("answers from 45.20.0.2 port 3479",), coturn=None,
                                      odd=("srv", "elsewhere", "45.20.0.2", "3478")),
    "answers too late": Situation("udp", ("--timeout",), odd=("rtr", "slow", "-", "1000")),
    "hangs": Situation("udp", ("process hangs",), hangs=True),
    "hangs over TCP": Situation("tcp", ("process hangs",), words=TCP, hangs=True),
    "closes": Situation("tcp", ("ends it without an answer",), words=TCP, coturn=None, odd=("srv", "closes", "45.20.0.2", "3478")),
    "resets": Situation("tcp", ("ends it without an answer",), words=TCP, coturn=None, odd=("srv", "resets", "45.20.0.2", "3478")),
    "resets at TLS": Situation("tls", ("ends it without an answer",), words=TLS, coturn=None,
                               odd=("srv", "resets", "45.20.0.2", "5349")),
    "mute at TLS": Situation("tls", ("says nothing", "the certificate"), words=TLS, coturn=None,
                             odd=("srv", "mute", "45.20.0.2", "5349")),
    "HTTP": Situation("tcp", ("HTTP/1.1",), words=TCP, coturn=None, odd=("srv", "http", "45.20.0.2", "3478")),
    "a dead address": Situation("udp", ("45.20.0.9 does not answer",), words="turn:dead.example.org"),
    "no Binding": Situation("udp", ("no Binding request", "no-stun"), "note", 0, coturn=("--no-stun",)),
    "balancer by packets": Situation("balancer", ("Several",), is_alone=True, coturn=("--twin", "45.20.0.3"), rules={"rtr": (
        "prerouting filter -300 iifname c1 ip daddr 45.20.0.2 udp dport 3478 notrack ; "
        "iifname c1 ip daddr 45.20.0.2 udp dport 3478 numgen random mod 2 == 0 ip daddr set 45.20.0.3 ; "
        "iifname s1 ip saddr 45.20.0.3 udp sport 3478 notrack ; "
        "iifname s1 ip saddr 45.20.0.3 udp sport 3478 ip saddr set 45.20.0.2",)}),
    "pion": Situation("", (), "", 0, coturn=None, pion=("3478", "45.20.0.2")),
    "pion that denies all peers": Situation("permission", ("refuses 45.20.0.2", "PermissionHandler"), coturn=None,
                                            pion=("3478", "45.20.0.2", "45.20.0.2", "deny")),
    "pion that relays at another host's address": Situation("allocation", ("not one of its host", "RelayAddress"), coturn=None,
                                                            pion=("3478", "45.20.0.2", "45.99.0.1")),
    "open to its own network": Situation("security-private-10", ("denied-peer-ip=10.0.0.0-10.255.255.255",),
                                         words=f"{URI} --security"),
    "closed to its own network": Situation("security", ("refuses peers in 169.254.0.0/16",), "ok", 0, f"{URI} --security", DENIED),
    # TLS
    "chain": Situation("tls", ("the whole chain",), words=TLS, tls="chained"),
    "certificate that ends soon": Situation("tls", ("ends in 1 days",), "note", 0, TLS, tls="soon"),
    "certificate for a name": Situation("tls", ("is for turn.example.org",), words=TLS.replace("turn.example.org", "45.20.0.2"),
                                        tls="good"),
    "old TLS": Situation("tls", ("older versions of TLS",), words=TLS, coturn=None,
                         odd=("srv", "tls-old", "45.20.0.2", "5349", "{certs}/good.pem", "{certs}/good.key")),
    "certificate of the client": Situation("tls", ("certificate (mutual TLS)",), words=TLS, coturn=None,
                                           odd=("srv", "tls-client", "45.20.0.2", "5349", "{certs}/good.pem", "{certs}/good.key")),
    "small MTU at TLS": Situation("tls", ("speaks TLS", "small MTU"), words=TLS, tls="good",
                                  rules=forward("iifname s1 meta length > 400 drop")),
    "unknown name": Situation("tls", ("refuses turn.example.org (SNI)",), words=TLS, coturn=None,
                              odd=("srv", "tls-name", "45.20.0.2", "5349", "{certs}/good.pem", "{certs}/good.key")),
    "no cipher": Situation("tls", ("ciphers", "cipher-list="), words=TLS, tls="good", coturn=("--cipher-list", "AES128-SHA")),
    # Credentials
    "redirect": Situation("challenge", ("45.20.0.3:3478",), coturn=("--alternate-server", "45.20.0.3:3478")),
    "empty realm": Situation("challenge", ("realm=",), coturn=("-r", "")),
    "stale for ever": Situation("allocation", ("438", "several servers"), coturn=None, odd=("srv", "stale", "45.20.0.2", "3478")),
    "shared secret": Situation("allocation", ("use-auth-secret",), coturn=("--use-auth-secret", "--static-auth-secret=secret")),
    "no user": Situation("allocation", ("--user NAME",), "untried", 2, env={}),
    "second server with another password": Situation("server-2", ("45.20.0.3",), words="turn:two.example.org",
                                                     coturn=("--second", "45.20.0.3")),
}


def _inside(namespace: str, words: Sequence[str]) -> List[str]:
    return ["ip", "netns", "exec", namespace, *words] if namespace else [*words]


def _coturn(situation: Situation, room: str, certs: str) -> Iterator[List[str]]:
    """The words of the servers: one, or with `--twin ADDRESS` another one there, and with `--second` one with another password."""
    options = [*(situation.coturn or ())]
    hosts = [(situation.at, "pass")]
    for name, password in (("--second", "other"), ("--twin", "pass")):
        if name in options:
            at = options.index(name)
            hosts.append((options[at + 1], password))
            del options[at:at + 2]
    for number, (host, password) in enumerate(hosts):
        words = ["turnserver", "-n", "-c", "/dev/null", "--no-cli", "--no-dtls", "-r", "realm", "-L", host, "-p", "3478",
                 "--relay-threads", "1", "--log-file", f"{room}/log{number}", "--pidfile", f"{room}/pid{number}", "--userdb",
                 f"{room}/db{number}"]
        words += [] if "--use-auth-secret" in options else ["--lt-cred-mech", "-u", f"user:{password}"]
        tls = [f"{certs}/{situation.tls}.{it}" for it in ("pem", "key")]
        words += ["--cert", tls[0], "--pkey", tls[1], "--tls-listening-port", "5349"] if situation.tls else ["--no-tls"]
        yield [*words, *options]


def _others(situation: Situation, certs: str) -> Iterator[Tuple[str, List[str]]]:
    """The words of the servers that are not coturn, each with its namespace."""
    if situation.odd:
        words = [sys.executable, "-m", "tests.odd_servers", *(it.format(certs=certs) for it in situation.odd[1:])]
        yield situation.odd[0], words
    if situation.pion:
        yield "srv", [f"{certs}/pion", *situation.pion]


@contextlib.contextmanager
def _running(situation: Situation, room: str, certs: str) -> Iterator[None]:
    """The servers and rules of a situation."""
    started: List["subprocess.Popen[Any]"] = []
    try:
        if situation.coturn is not None:
            for words in _coturn(situation, room, certs):
                server = subprocess.Popen(_inside("srv", words), stdout=subprocess.DEVNULL, stderr=subprocess.DEVNULL)
                started.append(server)
                wait_for(server, places(words))
        for namespace, words in _others(situation, certs):
            program = subprocess.Popen(_inside(namespace, words), stdout=subprocess.PIPE, stderr=subprocess.DEVNULL, text=True,
                                       cwd=TOP)
            started.append(program)
            assert program.stdout is not None and program.stdout.readline() == "ready\n", "the odd server did not start"
        for namespace, chains in situation.rules.items():
            _filter(namespace, chains)
        if situation.hangs:
            started[0].send_signal(signal.SIGSTOP)
        yield
    finally:
        for it in started:
            it.kill()
            it.wait()


def _filter(namespace: str, chains: Sequence[str]) -> None:
    text = "table inet it {\n"
    for number, (hook, kind, priority, rules) in enumerate(_chain(it) for it in chains):
        text += f"chain c{number} {{ type {kind} hook {hook} priority {priority}; policy accept; {rules}; }}\n"
    subprocess.run(_inside(namespace, ["nft", "-f", "-"]), input=text + "}\n", text=True, check=True)


def _chain(text: str) -> Tuple[str, str, str, str]:
    hook, kind, priority, rules = text.split(" ", 3)
    return hook, kind, priority, rules.replace("{{", "{").replace("}}", "}")


def main(name: str, room: str, certs: str) -> None:
    """Sets a situation up, and prints what a check says of it."""
    situation = ALL[name]
    kept = {it: value for it, value in os.environ.items() if not it.startswith("YARROWDOOR_") or it == "YARROWDOOR_LIB"}
    with _running(situation, room, certs):
        # YARROWDOOR_COVERED: the words with which coverage runs a module, to note which lines the check reaches.
        covered = os.environ.get("YARROWDOOR_COVERED", "").split()
        words = [sys.executable, *covered, "-m", "yarrowdoor", "check", *situation.words.format(certs=certs).split(), "--json"]
        # A machine that does much else answers later, where it answers.
        words += ["--timeout", str(min(4.0, limit(1.5)))] if not situation.odd else []
        begun = time.monotonic()
        ran = subprocess.run(_inside("srv" if situation.is_own else "", words), env={**kept, **situation.env}, cwd=TOP,
                             stdout=subprocess.PIPE, stderr=subprocess.PIPE, text=True, timeout=120)
        found = json.loads(ran.stdout) if ran.stdout else {"error": ran.stderr}
        print(json.dumps({**found, "returned": ran.returncode, "took": time.monotonic() - begun}))


if __name__ == "__main__":
    main(*sys.argv[1:])
