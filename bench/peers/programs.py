"""The programs that are measured: what each needs, how it is built, and which version it has."""
import json
import os
import pathlib
import shutil
import subprocess
from typing import Dict, List, NamedTuple, Tuple

HERE = pathlib.Path(__file__).resolve().parent
OUT = HERE / "out"
SHARED = HERE.parent / "shared"
DIST = pathlib.Path(os.environ.get("YARROWDOOR_DIST") or HERE.parents[1] / "dist")
GO_PATH = "/usr/share/gocode"
CC = ["cc", "-std=gnu11", "-O2", "-Wall", "-Wextra"]
LIBRE = ["-D", "HAVE_INTTYPES_H", "-D", "HAVE_INET6", "-D", "RELEASE", "-I", "/usr/include/re"]
LIBRE_LIBS = ["-l:libre.a", "-ldl", "-lssl", "-lcrypto", "-lz", "-lpthread", "-lresolv"]


class Peer(NamedTuple):
    """A client: its Debian packages, of which the first one has its version, files of these, and whether it keeps channels."""

    packages: Tuple[str, ...]
    files: Tuple[str, ...]
    keeps_channels: bool = True


OURS = "yarrowdoor"
PEERS = {
    OURS: Peer((), (str(DIST / "libyarrowdoor.a"), str(DIST / "yarrowdoor.h"))),
    "libre": Peer(("libre-dev", "libssl-dev", "zlib1g-dev"),
                  ("/usr/include/re/re.h", "/usr/include/openssl/ssl.h", "/usr/include/zlib.h")),
    "pion": Peer(("golang-github-pion-turn.v2-dev", "golang-go"), (f"{GO_PATH}/src/github.com/pion/turn/v2", "/usr/bin/go")),
    "coturn": Peer(("coturn", "libssl-dev"), ("/usr/lib/libturnclient.a", "/usr/include/openssl/ssl.h"), keeps_channels=False),
}


def is_there(name: str) -> bool:
    return all(os.path.exists(it) for it in PEERS[name].files)


def version(name: str) -> str:
    """The version of a peer, as Debian has it, and of this library, with what its proof says."""
    if name == OURS:
        said = json.loads((DIST / "yarrowdoor.json").read_text())["version"]
        is_proved = (DIST / "PROOF").exists() and "NOT PROVED" not in (DIST / "PROOF").read_text()
        return said if is_proved else f"{said}, NOT PROVED"
    words = ["dpkg-query", "-W", "-f=${Version}", PEERS[name].packages[0]]
    return subprocess.run(words, stdout=subprocess.PIPE, text=True, check=True).stdout


def has_send_head() -> bool:
    """Whether this library writes the head of a packet alone."""
    return "yarrowdoor_send_head(" in (DIST / "yarrowdoor.h").read_text()


def commands(name: str) -> Dict[str, List[str]]:
    """What builds the programs of a client: that of the calls, and that of a stream."""
    main = [str(HERE / it) for it in ("main.c", "inputs.c")] + [str(SHARED / it) for it in ("server.c", "sha1.c", "turns.c")]
    call, route = ["-I", str(SHARED), str(HERE / f"{name}.c"), *main], str(HERE / "route.c")
    if name == OURS:
        library = ["-I", str(DIST), str(DIST / "libyarrowdoor.a"), "-lm"]
        head = ["-D", "HAS_SEND_HEAD"] if has_send_head() else []
        return {name: [*CC, *head, *call, *library], "stream": [*CC, *head, str(HERE / "stream.c"), route, *library]}
    if name == "libre":
        stream = [*CC, *LIBRE, str(HERE / "stream_libre.c"), route, *LIBRE_LIBS]
        return {name: [*CC, *LIBRE, *call, *LIBRE_LIBS, "-lm"], "stream_libre": stream}
    if name == "pion":
        return {name: ["go", "build"]}
    return {name: [*CC, *call, "-lturnclient", "-lssl", "-lcrypto", "-lm"]}


def build(names: List[str]) -> None:
    OUT.mkdir(exist_ok=True)
    go = {**os.environ, "GO111MODULE": "off", "GOPATH": GO_PATH}
    for name in names:
        for program, words in commands(name).items():
            last = ["./pion"] if name == "pion" else []
            subprocess.run([*words, "-o", str(OUT / program), *last], cwd=HERE, env=go, check=True)
    subprocess.run([*CC, "-fPIC", "-shared", str(HERE / "heap.c"), "-o", str(OUT / "heap.so")], check=True)
    subprocess.run([*CC, str(HERE / "echo.c"), "-o", str(OUT / "echo")], check=True)


def compilers() -> str:
    """The compilers, each by the first line that it prints of itself."""
    words = [["cc", "--version"]] + ([["go", "version"]] if shutil.which("go") else [])
    return ", ".join(subprocess.run(it, stdout=subprocess.PIPE, text=True, check=True).stdout.splitlines()[0] for it in words)


def run(name: str, mode: str, channels: int) -> Dict[str, str]:
    """Runs a client's program, and returns its lines, by their first words."""
    env = dict(os.environ)
    if mode == "heap":
        env["LD_PRELOAD"] = str(OUT / "heap.so")
    words = [str(OUT / name), mode, str(channels)]
    done = subprocess.run(words, env=env, stdout=subprocess.PIPE, text=True, timeout=60, check=True)
    return dict(line.split(" ", 1) for line in done.stdout.splitlines())
