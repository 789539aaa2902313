"""Programs in a network namespace of their own, beside another one in which a server runs. Nothing of it is left when they end."""
import os
import pathlib
import shutil
import subprocess
import sys
import textwrap

TOP = str(pathlib.Path(__file__).resolve().parent.parent)
WHY = "this user may make no network namespace (unshare -n -m, ip netns)"
# A client at 10.98.0.1, and in the namespace `far` a server at 10.98.0.2, and behind a router at 10.97.0.2.
TWO = """
    mount -t tmpfs none /run && ip netns add far && ip link set lo up &&
    ip link add near0 type veth peer name far0 netns far && ip addr add 10.98.0.1/24 dev near0 && ip link set near0 up &&
    ip -n far addr add 10.98.0.2/24 dev far0 && ip -n far addr add 10.97.0.2/32 dev far0 && ip -n far link set far0 up &&
    ip -n far link set lo up && ip route add 10.97.0.0/24 via 10.98.0.2
"""
# One namespace alone, whose resolver is asked at 127.0.0.1.
ONE = """
    mount -t tmpfs none /run && ip link set lo up && echo nameserver 127.0.0.1 > /run/resolv.conf &&
    mount --bind /run/resolv.conf /etc/resolv.conf
"""


def has_namespaces() -> bool:
    """Whether this user may make them."""
    if not shutil.which("unshare") or not shutil.which("ip"):
        return False
    made = subprocess.run(["unshare", "-n", "-m", "sh", "-c", TWO], stdout=subprocess.DEVNULL, stderr=subprocess.DEVNULL)
    return made.returncode == 0


def start(program: str, *words: str, setup: str = TWO) -> "subprocess.Popen[str]":
    """Starts a program of Python in a new namespace."""
    python = [sys.executable, "-c", "import tests\n" + textwrap.dedent(program), *words]
    shell = f'{setup.strip()} && exec "$@"'
    return subprocess.Popen(["unshare", "-n", "-m", "sh", "-c", shell, "sh", *python], env={**os.environ, "PYTHONPATH": TOP},
                            stdout=subprocess.PIPE, stderr=subprocess.STDOUT, text=True)


def printed(process: "subprocess.Popen[str]", seconds: float) -> str:
    """What a program prints until it ends, or is ended after so many seconds."""
    try:
        said, _ = process.communicate(timeout=seconds)
    except subprocess.TimeoutExpired:
        process.kill()
        said = process.communicate()[0] + f"not done after {seconds} s\n"
    return said
