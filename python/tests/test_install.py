"""The package as a new user installs it, by pip and without a network: the wheel, the sources, and the archive of them."""
import hashlib
import os
import pathlib
import re
import shutil
import subprocess
import sys
import tempfile
import unittest
from typing import Dict, List, Optional

from . import coturn as server

TOP = pathlib.Path(__file__).resolve().parent.parent
LIBRARY = "libyarrowdoor.so.0"
# What says where the library is that a program uses, and the package's version.
SHOW = "import yarrowdoor, yarrowdoor.library as it; print(it.load().path, yarrowdoor.__version__)"


def has_pip() -> bool:
    """Whether this Python has venv, and a pip that installs into another environment."""
    asks = "import pip, sys, venv; sys.exit(tuple(int(it) for it in pip.__version__.split('.')[:2]) < (22, 3))"
    ran = subprocess.run([sys.executable, "-c", asks], stdout=subprocess.DEVNULL, stderr=subprocess.DEVNULL)
    return ran.returncode == 0


@unittest.skipUnless((TOP / "build_wheel.py").exists() and (TOP.parent / "LICENSE").exists(), "the sources are not here")
@unittest.skipUnless(has_pip(), "this Python has no venv, or no pip from 22.3 on")
@unittest.skipUnless(os.environ.get("YARROWDOOR_LIB"), "YARROWDOOR_LIB names no library")
class Installed(unittest.TestCase):
    def setUp(self) -> None:
        room = tempfile.TemporaryDirectory()
        self.addCleanup(room.cleanup)
        self.room = pathlib.Path(room.name)
        self.library = os.path.realpath(os.environ["YARROWDOOR_LIB"])
        # The sources, with no library beside them.
        self.sources = self.room / "sources" / "python"
        shutil.copytree(TOP, self.sources, ignore=shutil.ignore_patterns("wheel", "__pycache__", "plants", ".mypy_cache"))
        shutil.copy(TOP.parent / "LICENSE", self.sources.parent)
        subprocess.run([sys.executable, "-m", "venv", "--without-pip", str(self.room / "env")], check=True)
        self.python = str(self.room / "env" / "bin" / "python")

    def env(self, **more: str) -> Dict[str, str]:
        """The environment without the package, the library and a network."""
        names = ("YARROWDOOR_LIB", "YARROWDOOR_DIST", "PYTHONPATH", "VIRTUAL_ENV")
        kept = {key: value for key, value in os.environ.items() if key not in names}
        return {**kept, "PIP_NO_INDEX": "1", "PIP_DISABLE_PIP_VERSION_CHECK": "1", "PIP_NO_CACHE_DIR": "1", **more}

    def pip(self, *words: str, **more: str) -> "subprocess.CompletedProcess[str]":
        command = [sys.executable, "-m", "pip", "--python", self.python, "install", "--force-reinstall", *words]
        return subprocess.run(command, cwd=self.sources, env=self.env(**more), stdout=subprocess.PIPE, stderr=subprocess.STDOUT,
                              text=True)

    def shown(self, **more: str) -> List[str]:
        """The library and the version of what is installed."""
        return self.run_python("-c", SHOW, **more).split()

    def run_python(self, *words: str, **more: str) -> str:
        ran = subprocess.run([self.python, *words], cwd=self.room, env=self.env(**more), stdout=subprocess.PIPE,
                             stderr=subprocess.STDOUT, text=True, timeout=120)
        return ran.stdout

    def dist(self) -> str:
        """A folder as tools/build/library makes it, of the library at hand."""
        folder = self.room / "dist"
        folder.mkdir(exist_ok=True)
        shutil.copy(self.library, folder / LIBRARY)
        (folder / "SHA256SUMS").write_text(f"{hashlib.sha256((folder / LIBRARY).read_bytes()).hexdigest()}  {LIBRARY}\n")
        (folder / "PROOF").write_text("NOT PROVED: for a test\n")
        return str(folder)

    def build(self, call: str) -> str:
        """What a call of the backend makes, as a file in the room."""
        program = f"import build_wheel; print(build_wheel.{call}({str(self.room)!r}))"
        ran = subprocess.run([sys.executable, "-B", "-c", program], cwd=self.sources, env=self.env(YARROWDOOR_DIST=self.dist()),
                             stdout=subprocess.PIPE, check=True, text=True)
        return str(self.room / ran.stdout.strip())

    def ways(self) -> "list[list[str]]":
        return [["."], ["--no-build-isolation", "-e", "."], [self.build("build_sdist")]]

    def test_sources_where_a_library_is_named(self) -> None:
        for words in self.ways():
            with self.subTest(words=words):
                ran = self.pip(*words, YARROWDOOR_LIB=self.library)
                self.assertEqual(ran.returncode, 0, ran.stdout)
                path, version = self.shown(YARROWDOOR_LIB=self.library)
                self.assertEqual(path, self.library)
                self.assertRegex(version, r"^[0-9.]+$" if words[0].endswith(".tar.gz") else r"^[0-9.]+\+unproved$")
                # Without it, one sentence says what is missing.
                said = self.run_python("-c", SHOW).splitlines()[-1]
                self.assertRegex(said, r"^yarrowdoor\.errors\.LibraryError: the library for C is not loaded: .*builds it$")

    def test_an_archive_in_an_index(self) -> None:
        """pip refuses one of which it makes another version than the index has."""
        folder = os.path.dirname(self.build("build_sdist"))
        ran = self.pip("--find-links", folder, "yarrowdoor", YARROWDOOR_LIB=self.library)
        self.assertEqual(ran.returncode, 0, ran.stdout)
        self.assertRegex(self.shown(YARROWDOOR_LIB=self.library)[1], r"^[0-9.]+$")

    def test_sources_where_the_system_has_a_library(self) -> None:
        folder = self.dist()
        self.assertEqual(self.pip(".", LD_LIBRARY_PATH=folder).returncode, 0)
        self.assertEqual(self.shown(LD_LIBRARY_PATH=folder)[0], LIBRARY)

    def test_sources_where_there_is_none(self) -> None:
        for words in self.ways():
            with self.subTest(words=words):
                ran = self.pip(*words)
                self.assertNotEqual(ran.returncode, 0)
                said = [it.strip() for it in ran.stdout.splitlines() if "there is no library for C" in it]
                self.assertEqual(len(said), 1, ran.stdout)
                wanted = r"^there is no library for C \(.*\): run tools/build/library, or let YARROWDOOR_LIB name one"
                self.assertRegex(said[0], wanted)
                self.assertNotIn("Traceback", ran.stdout)

    def test_sources_beside_a_dist(self) -> None:
        """The wheel that pip makes of them has the library in it."""
        folder = self.dist()
        ran = self.pip(".", YARROWDOOR_DIST=folder)
        self.assertEqual(ran.returncode, 0, ran.stdout)
        self.assertTrue(self.shown()[0].startswith(str(self.room / "env")))

    def test_an_archive_that_is_whole(self) -> None:
        """Its tests run in it."""
        name = self.build("build_sdist")
        shutil.unpack_archive(name, self.room / "unpacked")
        top = next((self.room / "unpacked").iterdir())
        self.assertEqual(top.name, os.path.basename(name)[: -len(".tar.gz")])
        words = [sys.executable, "-B", "-m", "unittest", "tests.test_link", "tests.test_uri", "tests.test_names.Sockets"]
        ran = subprocess.run(words, cwd=top, env=self.env(YARROWDOOR_LIB=self.library), stdout=subprocess.PIPE,
                             stderr=subprocess.STDOUT, text=True)
        self.assertEqual(ran.returncode, 0, ran.stdout)

    @unittest.skipUnless(server.IS_HERE, server.WHY)
    def test_the_first_program(self) -> None:
        """The README's, in an empty environment with the wheel alone."""
        wheel = self.build("build_wheel")
        self.assertEqual(self.pip(wheel).returncode, 0)
        text = (TOP / "README.md").read_text()
        found: Optional[re.Match[str]] = re.search(r"\n   ```python\n(   import asyncio\n.*?)   ```\n", text, re.S)
        if found is None:
            self.fail("the README has no first program")
        port = server.free_port()
        peer = subprocess.Popen(["turnutils_peer", "-L", "127.0.0.1", "-p", str(port)], stdout=subprocess.DEVNULL)
        self.addCleanup(peer.wait)
        self.addCleanup(peer.terminate)
        server.wait_for(peer, {("udp", "127.0.0.1", port)})
        program = self.room / "echo.py"
        with server.coturn() as at:
            lines = found[1].replace("127.0.0.1:3478", f"127.0.0.1:{at.port}").replace("3480", str(port)).splitlines()
            program.write_text("".join(f"{line[3:]}\n" for line in lines))
            said = self.run_python(str(program))
        self.assertRegex(said, rf"^peers reach me at 127\.0\.0\.1:\d+\n127\.0\.0\.1:{port} sent b'hello'\n$")
        if shutil.which("mypy") and sys.version_info < (3, 12):  # Debian's mypy reads no later Python
            words = ["mypy", "--strict", "--python-executable", self.python, "--cache-dir", str(self.room / "mypy"), str(program)]
            checked = subprocess.run(words, env=self.env(), stdout=subprocess.PIPE, stderr=subprocess.STDOUT, text=True)
            self.assertEqual(checked.returncode, 0, checked.stdout)


if __name__ == "__main__":
    unittest.main()
