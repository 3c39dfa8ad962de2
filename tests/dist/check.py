#!/usr/bin/env python3
"""The tarball as somebody without the kit has it: unpacked in an empty folder, with no environment but a PATH, it lists the first
example and says its version; the program needs no library but the C library, and in a folder that has that one alone (chroot, if
this runs as root) it answers the stored session byte for byte; and what make install says of the PATH is true.

Usage: check.py, once the program is built.
"""
import os
import re
import subprocess
import sys
import tempfile
import unittest

TOP = os.path.normpath(os.path.join(os.path.dirname(os.path.realpath(__file__)), "../.."))
PROGRAM = os.path.join(TOP, "crates/hlasm_ls")


def read(path, mode="r"):
    with open(path, mode, **({} if "b" in mode else {"encoding": "utf-8"})) as file:
        return file.read()


def run(words, **more):
    return subprocess.run(words, capture_output=True, timeout=120, **more)


VERSION = read(os.path.join(TOP, "VERSION")).strip()


class Tarball(unittest.TestCase):
    @classmethod
    def setUpClass(cls):
        room = tempfile.TemporaryDirectory(prefix="hlasm-dist-")
        cls.addClassCleanup(room.cleanup)
        cls.room = room.name
        made = run([os.path.join(TOP, "tools/dist.sh"), f"{cls.room}/made"], check=True, encoding="utf-8").stdout.strip()
        assert made == f"{cls.room}/made/hlasm_ls-{VERSION}-linux-x86_64.tar.gz", made
        run(["tar", "-C", cls.room, "-xzf", made], check=True)
        cls.folder = f"{cls.room}/hlasm_ls-{VERSION}-linux-x86_64"

    def lint(self, *words):
        python = os.path.dirname(os.path.realpath(sys.executable))
        environment = {"PATH": f"{python}:/usr/bin:/bin"}
        return run(["bin/hlasm-lint", *words], cwd=self.folder, env=environment, encoding="utf-8")

    def test_it_lists_the_first_example(self):
        ran = self.lint("examples/first.hlasm")
        self.assertEqual((1, read(f"{TOP}/tests/clients/first.txt"), ""), (ran.returncode, ran.stdout, ran.stderr))

    def test_it_says_its_version(self):
        self.assertEqual(f"hlasm-lint {VERSION}\n", self.lint("--version").stdout)

    def test_what_is_in_it(self):
        self.assertEqual(["README", "VERSION", "bin", "clients", "docs", "examples"], sorted(os.listdir(self.folder)))
        self.assertEqual(["emacs", "kate", "neovim", "vscode"], sorted(os.listdir(f"{self.folder}/clients")))
        about = read(f"{self.folder}/README").splitlines()
        self.assertEqual(10, len(about), "the README has ten lines")
        self.assertIn(VERSION, about[0])
        for page in ("USER", "EDITORS", "PIPELINE"):
            self.assertIn(f"docs/{page}.md", " ".join(about))
            self.assertTrue(os.path.isfile(f"{self.folder}/docs/{page}.md"))

    def test_what_its_pages_name_is_in_it(self):
        for page in sorted(os.listdir(f"{self.folder}/docs")):
            text = read(f"{self.folder}/docs/{page}")
            pages = [f"docs/{name}" for name in re.findall(r"(?<![\w/])(?:docs/)?([A-Z]+\.md)\b", text)]
            for name in pages + re.findall(r"(?<![\w/])(?:clients|examples)/[\w./-]*\w", text):
                self.assertTrue(os.path.exists(f"{self.folder}/{name}"), f"{page} names {name}")

    def libraries(self):
        """The libraries that the program needs: their names, and where they are here."""
        lines = run(["ldd", f"{self.folder}/bin/hlasm_ls"], check=True, encoding="utf-8").stdout.splitlines()
        found = {line.split()[0]: line.split()[-2] for line in lines if "vdso" not in line}
        return {os.path.basename(name): path for name, path in found.items()}

    def test_it_needs_the_c_library_alone(self):
        self.assertEqual({"libc.so.6", "ld-linux-x86-64.so.2"}, set(self.libraries()))

    @unittest.skipUnless(os.geteuid() == 0, "only root may chroot")
    def test_it_runs_where_there_is_nothing_else(self):
        bare = f"{self.room}/bare"
        for path in (*self.libraries().values(), f"{self.folder}/bin/hlasm_ls"):
            place = bare + (path if path.startswith("/lib") else "/hlasm_ls")
            os.makedirs(os.path.dirname(place), exist_ok=True)
            with open(place, "wb") as file:
                file.write(read(path, "rb"))
            os.chmod(place, 0o755)
        with open(f"{PROGRAM}/stdin", "rb") as session:
            ran = run(["/hlasm_ls", "serve"], stdin=session, env={}, cwd="/", preexec_fn=lambda: os.chroot(bare))
        self.assertEqual((0, read(f"{PROGRAM}/stdout", "rb"), b""), (ran.returncode, ran.stdout, ran.stderr))

    def test_where_it_was_installed(self):
        words = [os.path.join(TOP, "tools/install.sh"), f"{self.room}/staged/bin", "/opt/hlasm/bin"]
        says = f"hlasm_ls, hlasm-lint and hlasm-debug {VERSION} are in /opt/hlasm/bin\n"
        for path, more in (("/opt/hlasm/bin:", "That is on your PATH.\n"),
                           ("/opt/hlasm/bin2:", 'That is not on your PATH. Add it, in ~/.profile: PATH="/opt/hlasm/bin:$PATH"\n')):
            ran = run(words, env=dict(os.environ, PATH=path + os.environ["PATH"]), encoding="utf-8")
            self.assertEqual((0, says + more, ""), (ran.returncode, ran.stdout, ran.stderr))
        self.assertEqual(["hlasm-debug", "hlasm-lint", "hlasm_ls"], sorted(os.listdir(f"{self.room}/staged/bin")))


if __name__ == "__main__":
    if not os.access(f"{PROGRAM}/out/hlasm_ls", os.X_OK):
        sys.exit("check.py: there is no program: make run builds it")
    unittest.main()
