"""Wheels and source archives: what is in them, that they are made the same twice, and what their version says of proofs."""
import hashlib
import importlib.util
import os
import pathlib
import re
import shutil
import struct
import subprocess
import sys
import tarfile
import tempfile
import unittest
import unittest.mock
import zipfile
from typing import Any, Optional

BACKEND = pathlib.Path(__file__).resolve().parent.parent / "build_wheel.py"
HEAD = "proved with: rt 1\nsources: 0123456\nrt lib in crates/turn_c:\n"
NO_GATE = "the gate: no log was given\n"


def library(*needs: str, machine: int = 62, more: bytes = b"") -> bytes:
    """A shared library of 64 bits, for x86-64 unless told otherwise, that needs these and has nothing else: one segment in memory,
    at 0x1000, and one that is dynamic in it."""
    texts = b"\0" + b"".join(it.encode() + b"\0" for it in needs)
    places = [texts.index(it.encode()) for it in needs]
    dynamic = b"".join(struct.pack("<qQ", *it) for it in [*((1, it) for it in places), (5, 0x1000 + 176), (0, 0)])
    head = b"\x7fELF\2\1\1" + bytes(9) + struct.pack("<HHIQQQIHHHHHH", 3, machine, 1, 0, 64, 0, 0, 64, 56, 2, 0, 0, 0)
    size = len(texts) + len(dynamic) + 176
    segments = struct.pack("<IIQQQQQQ", 1, 4, 0, 0x1000, 0x1000, size, size, 8)
    segments += struct.pack("<IIQQQQQQ", 2, 4, 176 + len(texts), 0, 0, len(dynamic), len(dynamic), 8)
    return head + segments + texts + dynamic + more


LIBRARY = library()


def backend() -> Any:
    spec = importlib.util.spec_from_file_location("build_wheel", BACKEND)
    if spec is None or spec.loader is None:
        raise ImportError(str(BACKEND))
    module = importlib.util.module_from_spec(spec)
    spec.loader.exec_module(module)
    return module


def wheel_with(proof: str, room: str, found: bytes = LIBRARY) -> str:
    """The name of a wheel in this folder, made with this PROOF and this library."""
    folder = pathlib.Path(room)
    (folder / "libyarrowdoor.so.0").write_bytes(found)
    (folder / "SHA256SUMS").write_text(f"{hashlib.sha256(found).hexdigest()}  libyarrowdoor.so.0\n")
    (folder / "PROOF").write_text(proof)
    with unittest.mock.patch.dict(os.environ, YARROWDOOR_DIST=room):
        return str(backend().build_wheel(room))


@unittest.skipUnless(BACKEND.exists(), "the sources are not here")
class Versions(unittest.TestCase):
    PROVED = (
        HEAD + "out/libturn_c.a logic=proved\n" + NO_GATE,
        HEAD + "made\nthe gate:\na: passed\nb: passed\n31 passed, 0 failed\n",
        HEAD + "made\nthe gate: 31 passed, 0 failed\n",
    )
    UNPROVED = (
        "",
        "NOT PROVED: compiled for development alone\nsources: 0123456\nproved=no\n",
        "NOT PROVED\nlogic=proved\n",
        HEAD + "out/libturn_c.a\n" + NO_GATE,
        HEAD + "logic=proved-in-part\n" + NO_GATE,
        HEAD + "logic=proved functions=0 UNPROVED, for a test\n" + NO_GATE,
        HEAD + "the gate:\n30 passed, 1 failed\n",
        HEAD + "the gate: 30 passed, 1 failed\n",
        HEAD + "the gate:\n31 passed, 0 failed\nstopped\n",
        HEAD + "the gate:\n0 passed, 0 failed\n",
    )

    def version_with(self, proof: str) -> str:
        """The version in the name, the metadata and the package of a wheel with this PROOF."""
        with tempfile.TemporaryDirectory() as room:
            name = wheel_with(proof, room)
            _, version, *_ = name.split("-")
            with zipfile.ZipFile(pathlib.Path(room, name)) as wheel:
                metadata = wheel.read(f"yarrowdoor-{version}.dist-info/METADATA").decode()
                self.assertEqual(wheel.read("yarrowdoor/PROOF").decode(), proof)
                self.assertIn(f'\n__version__ = "{version}"\n', wheel.read("yarrowdoor/version.py").decode())
            self.assertIn(f"\nVersion: {version}\n", metadata)
            return version

    def test_a_proved_library(self) -> None:
        for proof in self.PROVED:
            self.assertRegex(self.version_with(proof), r"^[0-9.]+$")

    def test_a_library_that_is_not_proved(self) -> None:
        for proof in self.UNPROVED:
            with self.subTest(proof=proof):
                self.assertRegex(self.version_with(proof), r"^[0-9.]+\+unproved$")

    def test_the_package_for_rust_has_the_same(self) -> None:
        manifest = BACKEND.parent.parent / "rust" / "Cargo.toml"
        if not manifest.exists():
            self.skipTest("the sources of the package for Rust are not here")
        self.assertIn(f'\nversion = "{backend().release()}"\n', manifest.read_text())


@unittest.skipUnless(BACKEND.exists(), "the sources are not here")
class Files(unittest.TestCase):
    def test_a_wheel_that_is_made_twice(self) -> None:
        """In another folder, with other times and rights of the files, another time zone and another order of dictionaries."""
        with tempfile.TemporaryDirectory() as room, tempfile.TemporaryDirectory() as other:
            name = wheel_with(HEAD, room)
            top = pathlib.Path(other, "elsewhere")
            shutil.copytree(BACKEND.parent, top, ignore=shutil.ignore_patterns("wheel", "__pycache__", "plants"))
            shutil.copy(BACKEND.parent.parent / "LICENSE", other)
            for path in top.rglob("*"):
                os.utime(path, (1, 1))
                os.chmod(path, 0o700 if path.is_dir() else 0o600)
            env = {**os.environ, "YARROWDOOR_DIST": room, "TZ": "Pacific/Apia", "PYTHONHASHSEED": "7", "LC_ALL": "C"}
            subprocess.run([sys.executable, "-B", "build_wheel.py", other], cwd=top, env=env, check=True, stdout=subprocess.DEVNULL)
            self.assertEqual(pathlib.Path(other, name).read_bytes(), pathlib.Path(room, name).read_bytes())

    def test_the_files_of_a_wheel(self) -> None:
        with tempfile.TemporaryDirectory() as room:
            with zipfile.ZipFile(pathlib.Path(room, wheel_with(HEAD, room))) as wheel:
                names = wheel.namelist()
                info = next(it for it in names if it.endswith("/METADATA")).rpartition("/")[0]
                metadata, record = wheel.read(f"{info}/METADATA").decode(), wheel.read(f"{info}/RECORD").decode()
                self.assertIn(b"MIT License", wheel.read(f"{info}/LICENSE"))
        self.assertIn("yarrowdoor/py.typed", names)
        self.assertEqual([it.split(",")[0] for it in record.splitlines()], names)
        for line in ("License-File: LICENSE", "Classifier: Typing :: Typed", "Requires-Python: >=3.9",
                     "Project-URL: TURN (RFC 8656), https://www.rfc-editor.org/rfc/rfc8656.html"):
            self.assertIn(f"\n{line}\n", metadata)

    def test_the_systems_that_a_wheel_fits(self) -> None:
        old = b"\0GLIBC_2.2.5\0GLIBC_2.17\0"
        for found, tag in ((LIBRARY, "manylinux_2_17_x86_64.musllinux_1_1_x86_64"),
                           (library(machine=183), "manylinux_2_17_aarch64.musllinux_1_1_aarch64"),
                           (library("libc.so.6", more=old), "manylinux_2_17_x86_64"),
                           (library("libc.so.6", machine=183), "manylinux_2_17_aarch64"),
                           (library("libc.musl-x86_64.so.1"), "musllinux_1_1_x86_64")):
            with tempfile.TemporaryDirectory() as room:
                name = wheel_with(HEAD, room, found)
                self.assertEqual(name, f"yarrowdoor-{backend().release()}+unproved-cp39-abi3-{tag}.whl")
                with zipfile.ZipFile(pathlib.Path(room, name)) as wheel:
                    about = wheel.read(f"yarrowdoor-{backend().release()}+unproved.dist-info/WHEEL").decode()
                self.assertEqual(re.findall("^Tag: (.*)$", about, re.M), [f"cp39-abi3-{it}" for it in tag.split(".")])

    def test_the_systems_that_no_wheel_fits(self) -> None:
        """A newer C library, another library, another machine, and what is no library."""
        newer = library("libc.so.6", more=b"GLIBC_2.34\0")
        for found in (newer, library("libc.so.6", "libm.so.6"), library("libcrypto.so.3"), library(machine=40)):
            with tempfile.TemporaryDirectory() as room, self.assertRaisesRegex(SystemExit, "^there is no tag for this library"):
                wheel_with(HEAD, room, found)
        with tempfile.TemporaryDirectory() as room, self.assertRaisesRegex(SystemExit, "^the library is no ELF file"):
            wheel_with(HEAD, room, b"MZ" + bytes(99))

    def test_the_processors_that_a_wheel_is_for(self) -> None:
        for name in ("x86-64-v3", "neoverse-v2"):
            with tempfile.TemporaryDirectory() as room, self.assertRaisesRegex(SystemExit, f"^the library is for {name}, and "):
                wheel_with(f"target: x86_64-linux\nprocessor: {name}\n{HEAD}", room)
        for name in ("x86-64", "generic"):
            with tempfile.TemporaryDirectory() as room:
                wheel_with(f"target: x86_64-linux\nprocessor: {name}\n{HEAD}", room)

    def test_a_library_that_is_not_as_its_sums_say(self) -> None:
        with tempfile.TemporaryDirectory() as room:
            wheel_with(HEAD, room)
            pathlib.Path(room, "libyarrowdoor.so.0").write_bytes(b"other")
            with unittest.mock.patch.dict(os.environ, YARROWDOOR_DIST=room):
                with self.assertRaisesRegex(SystemExit, "is not as .*SHA256SUMS says$"):
                    backend().build_wheel(room)


@unittest.skipUnless(BACKEND.exists(), "the sources are not here")
class Sources(unittest.TestCase):
    """A source archive, and what is made of it where the library is elsewhere."""

    def setUp(self) -> None:
        room = tempfile.TemporaryDirectory()
        self.addCleanup(room.cleanup)
        self.room = pathlib.Path(room.name)
        name = backend().build_sdist(room.name)
        self.archive = (self.room / name).read_bytes()
        with tarfile.open(self.room / name) as archive:
            archive.extractall(self.room)
        self.top = self.room / name[: -len(".tar.gz")]

    def build(self, call: str, library: Optional[str]) -> "subprocess.CompletedProcess[str]":
        env = {key: value for key, value in os.environ.items() if not key.startswith("YARROWDOOR_")}
        if library is not None:
            env["YARROWDOOR_LIB"] = library
        program = f"import build_wheel; print(build_wheel.{call}({str(self.room)!r}))"
        return subprocess.run([sys.executable, "-B", "-c", program], cwd=self.top, env=env, stdout=subprocess.PIPE,
                              stderr=subprocess.PIPE, text=True)

    def test_a_version_that_an_index_takes(self) -> None:
        """A public one (PEP 440), in the name of the archive and in its metadata."""
        self.assertRegex(self.top.name, r"^yarrowdoor-[0-9]+(\.[0-9]+)*$")
        self.assertIn(f"Version: {self.top.name.partition('-')[2]}\n", (self.top / "PKG-INFO").read_text())

    def test_an_archive_that_is_made_twice(self) -> None:
        self.assertEqual((self.room / backend().build_sdist(str(self.room))).read_bytes(), self.archive)
        self.assertEqual(self.build("build_sdist", None).returncode, 0)
        self.assertEqual((self.room / f"{self.top.name}.tar.gz").read_bytes(), self.archive)

    def test_no_library(self) -> None:
        for call in ("build_wheel", "build_editable"):
            ran = self.build(call, "/nowhere/libyarrowdoor.so.0")
            self.assertEqual(ran.returncode, 1)
            self.assertRegex(ran.stderr, r"\Athere is no library for C \(.*\): run tools/build/library, or [^\n]*\n\Z")

    def test_a_library_elsewhere(self) -> None:
        library = os.environ.get("YARROWDOOR_LIB")
        if library is None:
            self.skipTest("YARROWDOOR_LIB names no library")
        ran = self.build("build_wheel", library)
        self.assertEqual(ran.stdout, f"{self.top.name}-py3-none-any.whl\n")
        with zipfile.ZipFile(self.room / ran.stdout.strip()) as wheel:
            self.assertFalse([it for it in wheel.namelist() if ".so" in it or it.endswith("PROOF")])
        ran = self.build("build_editable", library)
        with zipfile.ZipFile(self.room / ran.stdout.strip()) as wheel:
            self.assertEqual(wheel.read("yarrowdoor.pth").decode().strip(), str(self.top.resolve()))


if __name__ == "__main__":
    unittest.main()
