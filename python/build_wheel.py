"""Makes wheels and source archives of the package: a build backend (PEP 517, PEP 660) that needs the standard library alone.

A wheel holds the library for C where there is one in the folder `YARROWDOOR_DIST`, by default `../dist`, which tools/build/library
makes: the library, its checksum (`yarrowdoor/SHA256SUMS`), and what proved it (`yarrowdoor/PROOF`). Else the package is made
without it, where `YARROWDOOR_LIB` names one or the system has one: that one is used. Where no PROOF says that the library is
proved, the version ends with `+unproved`. The same files make the same wheel. Of the folder of another platform, as
`dist/aarch64-linux`, a wheel for that one is made.

    python3 build_wheel.py FOLDER       puts a wheel with the library into the folder, and prints its name
"""
from __future__ import annotations

import base64
import ctypes
import gzip
import hashlib
import io
import os
import pathlib
import re
import struct
import sys
import tarfile
import zipfile
from typing import Any, Dict, List, Optional

HERE = pathlib.Path(__file__).resolve().parent
LIBRARY = "libyarrowdoor.so.0"
MACHINES = {62: "x86_64", 183: "aarch64"}
# The processors of which every one of a machine has what they have: a wheel is for all of them.
BASELINE = ("x86-64", "generic")
# The newest C library of the GNU project that the wheel may ask for: pip knows the tag from it.
GLIBC = (2, 17)
# The time of all files in what is made, in seconds since 1970: 2020-01-01.
TIME = 1_577_836_800


def project(name: str) -> str:
    """A text of pyproject.toml."""
    found = re.search(rf'^{name} = "(.*)"$', (HERE / "pyproject.toml").read_text(), re.M)
    if found is None:
        sys.exit(f"pyproject.toml has no {name}")
    return found[1]


def release() -> str:
    """The version of the package, which stands in yarrowdoor/version.py alone, without what says that it is not proved."""
    found = re.search(r'^__version__ = "(.*)\+unproved"$', (HERE / "yarrowdoor" / "version.py").read_text(), re.M)
    if found is None:
        sys.exit("yarrowdoor/version.py has no __version__")
    return found[1]


def dist() -> Optional[pathlib.Path]:
    """The folder of the library, which has to be as its SHA256SUMS say. None where there is none, and none was named."""
    named = os.environ.get("YARROWDOOR_DIST")
    folder = pathlib.Path(named or HERE.parent / "dist")
    if not (folder / LIBRARY).exists():
        if named:
            sys.exit(f"there is no {folder / LIBRARY}: run tools/build/library")
        return None
    line = f"{hashlib.sha256((folder / LIBRARY).read_bytes()).hexdigest()}  {LIBRARY}"
    if line not in (folder / "SHA256SUMS").read_text().splitlines():
        sys.exit(f"{folder / LIBRARY} is not as {folder / 'SHA256SUMS'} says")
    return folder


def check_other_library() -> None:
    """Ends, and says what is missing, where a package without a library would find none."""
    named = os.environ.get("YARROWDOOR_LIB") or LIBRARY
    try:
        ctypes.CDLL(named)
    except OSError as error:
        sys.exit(f"there is no library for C ({error}): run tools/build/library, "
                 "or let YARROWDOOR_LIB name one, or YARROWDOOR_DIST its "
                 "folder")


def is_proved(proof: str) -> bool:
    """Whether PROOF has the `logic=proved` of `rt lib`, or ends with a gate that passed, and has nothing that says otherwise."""
    if re.search(r"NOT PROVED|UNPROVED|\bproved=no\b", proof):
        return False
    has_passed = re.search(r"^(?:the gate: )?[1-9][0-9]* passed, 0 failed\s*\Z", proof, re.M)
    return bool(has_passed or re.search(r"(?<!\S)logic=proved(?!\S)", proof))


def version(folder: Optional[pathlib.Path]) -> str:
    """The version of a wheel: one whose library is not proved, or is another's, says so (a local version of PEP 440). One that is
    made of a source archive, without a library, has the archive's version: pip refuses another one."""
    is_plain = (HERE / "PKG-INFO").exists() if folder is None else is_proved((folder / "PROOF").read_text())
    return release() + ("" if is_plain else "+unproved")


def needed(library: bytes) -> List[str]:
    """The names of the libraries that a shared library needs: its DT_NEEDED, in an ELF file of 64 bits, little end first."""
    if library[:6] != b"\x7fELF\2\1":
        sys.exit("the library is no ELF file of 64 bits, little end first")
    (start,), (size, count) = struct.unpack_from("<Q", library, 32), struct.unpack_from("<HH", library, 54)
    # Of each segment: kind, flags, place in the file and in memory, another place, size in the file.
    segments = [struct.unpack_from("<IIQQQQ", library, start + size * at) for at in range(count)]
    dynamic = [it for kind, _, place, _, _, length in segments if kind == 2
               for it in struct.iter_unpack("<qQ", library[place:place + length // 16 * 16])]
    texts = next((value for tag, value in dynamic if tag == 5), 0)
    front = next((texts - it[3] + it[2] for it in segments if it[0] == 1 and it[3] <= texts < it[3] + it[5]), 0)
    return [library[front + value:library.index(b"\0", front + value)].decode() for tag, value in dynamic if tag == 1]


def platform(library: bytes) -> str:
    """The tags of the machine and the C libraries that this library fits. One that needs no other library fits both of them."""
    machine, needs = MACHINES.get(struct.unpack_from("<H", library, 18)[0]), needed(library)
    versions = [(int(it[1]), int(it[2])) for it in re.finditer(rb"GLIBC_(\d+)\.(\d+)", library)]
    gnu, musl = f"manylinux_{GLIBC[0]}_{GLIBC[1]}_{machine}", f"musllinux_1_1_{machine}"
    if machine is not None and not needs:
        return f"{gnu}.{musl}"
    if machine is not None and needs == ["libc.so.6"] and max(versions, default=(0, 0)) <= GLIBC:
        return gnu
    if needs == [f"libc.musl-{machine}.so.1"]:
        return musl
    sys.exit(f"there is no tag for this library: machine {machine}, libraries {needs}, versions {versions}")


def check_processor(proof: str) -> None:
    """Ends where the library is for some processors of its kind alone."""
    found = re.search(r"^processor: (.*)$", proof, re.M)
    if found is not None and found[1] not in BASELINE:
        sys.exit(f"the library is for {found[1]}, and a wheel is for each processor of its kind: "
                 "run tools/build/library without --cpu")


def sources() -> Dict[str, bytes]:
    """The files of the package, by their names in it."""
    return {it.relative_to(HERE).as_posix(): it.read_bytes() for it in sorted((HERE / "yarrowdoor").rglob("*"))
            if it.suffix == ".py" or it.name == "py.typed"}


def entry_points() -> bytes:
    """The commands of the package, as installers read them: the section `[project.scripts]` of pyproject.toml."""
    found = re.search(r"^\[project\.scripts\]\n((?:.+\n)+)", (HERE / "pyproject.toml").read_text(), re.M)
    return f"[console_scripts]\n{found[1]}".replace('"', "").encode() if found is not None else b""


def licence() -> bytes:
    """The text of the licence, which stands beside the package in a source archive, and above it in the repository."""
    found = [it for it in (HERE / "LICENSE", HERE.parent / "LICENSE") if it.exists()]
    if not found:
        sys.exit("there is no LICENSE")
    return found[0].read_bytes()


def metadata(version: str) -> bytes:
    head = [("Metadata-Version", "2.1"), ("Name", project("name")), ("Version", version), ("Summary", project("description")),
            ("License", "MIT OR Apache-2.0"), ("License-File", "LICENSE"), ("Requires-Python", project("requires-python"))]
    about = (HERE / "pyproject.toml").read_text()
    head += [("Project-URL", ", ".join(it)) for it in re.findall(r'^urls\."(.*)" = "(.*)"$', about, re.M)]
    head += [("Classifier", it) for it in re.findall(r'^    "(.* :: .*)",$', about, re.M)]
    head += [("Description-Content-Type", "text/markdown")]
    lines = "".join(f"{name}: {value}\n" for name, value in head)
    return f"{lines}\n{(HERE / 'README.md').read_text()}".encode()


def sum_of(data: bytes) -> str:
    return base64.urlsafe_b64encode(hashlib.sha256(data).digest()).rstrip(b"=").decode()


def write_wheel(directory: str, version: str, tag: str, found: Dict[str, bytes]) -> str:
    """Writes a wheel with these files, and its own, and returns its name."""
    about = f"{project('name')}-{version}"
    info = f"{about}.dist-info"
    # A library is called through the interpreter's lock of CPython (`ctypes.PyDLL`), which PyPy and builds without a lock have not.
    # They take no wheel of the stable ABI, and each CPython from 3.9 on does.
    python = "py3-none" if tag == "any" else "cp39-abi3"
    tags = "".join(f"Tag: {python}-{it}\n" for it in tag.split("."))
    found[f"{info}/METADATA"] = metadata(version)
    found[f"{info}/LICENSE"] = licence()
    found[f"{info}/entry_points.txt"] = entry_points()
    is_pure = "true" if tag == "any" else "false"
    found[f"{info}/WHEEL"] = f"Wheel-Version: 1.0\nGenerator: build_wheel\nRoot-Is-Purelib: {is_pure}\n{tags}".encode()
    record = "".join(f"{name},sha256={sum_of(data)},{len(data)}\n" for name, data in found.items())
    found[f"{info}/RECORD"] = f"{record}{info}/RECORD,,\n".encode()
    name = f"{about}-{python}-{tag}.whl"
    with zipfile.ZipFile(os.path.join(directory, name), "w", zipfile.ZIP_DEFLATED) as wheel:
        for path, data in found.items():
            entry = zipfile.ZipInfo(path, (2020, 1, 1, 0, 0, 0))
            entry.external_attr = (0o755 if path.endswith(LIBRARY) else 0o644) << 16
            entry.compress_type = zipfile.ZIP_DEFLATED
            wheel.writestr(entry, data)
    return name


def build_wheel(wheel_directory: str, config_settings: Any = None, metadata_directory: Any = None) -> str:
    """Makes a wheel, with the library if there is a `dist`, and returns its name (PEP 517)."""
    folder, found, tag = dist(), sources(), "any"
    called = version(folder)
    found["yarrowdoor/version.py"] = re.sub(rb'"[^"]*"$', f'"{called}"'.encode(), found["yarrowdoor/version.py"].rstrip()) + b"\n"
    if folder is None:
        check_other_library()
    else:
        library = (folder / LIBRARY).read_bytes()
        found[f"yarrowdoor/{LIBRARY}"], tag = library, platform(library)
        check_processor((folder / "PROOF").read_text())
        found["yarrowdoor/PROOF"] = (folder / "PROOF").read_bytes()
        found["yarrowdoor/SHA256SUMS"] = f"{hashlib.sha256(library).hexdigest()}  {LIBRARY}\n".encode()
    return write_wheel(wheel_directory, called, tag, found)


def build_editable(wheel_directory: str, config_settings: Any = None, metadata_directory: Any = None) -> str:
    """Makes a wheel that names this folder, and returns its name (PEP 660). The library is the one that `YARROWDOOR_LIB` names, or
    the system's."""
    check_other_library()
    return write_wheel(wheel_directory, version(None), "any", {"yarrowdoor.pth": f"{HERE}\n".encode()})


def build_sdist(sdist_directory: str, config_settings: Any = None) -> str:
    """Makes an archive of the sources and their tests, without the library, and returns its name (PEP 517). Its version is that of
    the release: no index takes a local version, and it has no library that could be proved or not."""
    about = f"{project('name')}-{release()}"
    found = sources()
    found.update({f"tests/{it.name}": it.read_bytes() for it in sorted((HERE / "tests").glob("*.py"))})
    for name in ("pyproject.toml", "build_wheel.py", "README.md"):
        found[name] = (HERE / name).read_bytes()
    found["LICENSE"], found["PKG-INFO"] = licence(), metadata(release())
    packed = io.BytesIO()
    with tarfile.open(fileobj=packed, mode="w", format=tarfile.PAX_FORMAT) as archive:
        for path, data in sorted(found.items()):
            entry = tarfile.TarInfo(f"{about}/{path}")
            entry.size, entry.mtime, entry.mode = len(data), TIME, 0o644
            archive.addfile(entry, io.BytesIO(data))
    with open(os.path.join(sdist_directory, f"{about}.tar.gz"), "wb") as file:
        file.write(gzip.compress(packed.getvalue(), mtime=TIME))
    return f"{about}.tar.gz"


def main() -> None:
    if len(sys.argv) != 2:
        sys.exit(__doc__)
    if dist() is None:
        sys.exit(f"there is no {HERE.parent / 'dist' / LIBRARY}: run tools/build/library, or set YARROWDOOR_DIST")
    pathlib.Path(sys.argv[1]).mkdir(parents=True, exist_ok=True)
    print(build_wheel(sys.argv[1]))


if __name__ == "__main__":
    main()
