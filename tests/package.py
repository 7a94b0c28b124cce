#!/usr/bin/env python3
"""Tests the Debian package: what it has, that it is installed into a fresh root, that its unit's words start the server
there, and that it is removed without the server's data.

What a tool that is not there would have tested is left out."""

import atexit
import functools
import json
import os
import re
import shlex
import shutil
import subprocess
import sys
import tempfile
import urllib.error
import urllib.request
from pathlib import Path
from typing import Any

from suite import TOP, LeftOut, program, run_tests

UNIT = "usr/lib/systemd/system/mx_federd.service"
SECONDS = 60


def run(*words: object, **how: Any) -> str:
    """What a command prints, which has to end with status 0."""
    ran = subprocess.run([str(word) for word in words], stdout=subprocess.PIPE, stderr=subprocess.STDOUT, text=True,
                         stdin=subprocess.DEVNULL, timeout=SECONDS, **how)
    assert ran.returncode == 0, (words, ran.stdout)
    return ran.stdout


def need(*tools: str) -> None:
    """Leaves a test out that needs a tool which is not there."""
    for tool in tools:
        if not shutil.which(tool):
            raise LeftOut(f"there is no {tool}")


@functools.cache
def package() -> Path:
    """The package of the program that is tested, made once."""
    need("dpkg-deb", "dpkg")
    folder = tempfile.mkdtemp()
    atexit.register(shutil.rmtree, folder)
    return made_in(folder)


def made_in(folder: Path | str) -> Path:
    """A package that is made in this folder."""
    return Path(run(TOP / "packaging/deb/make_deb.py", program(), folder).strip())


def named_by_its_version() -> None:
    """The package has the version that the program prints, in its name and its fields, and CHANGELOG.md has a part on it."""
    version = run(program(), "--version").split("\n")[0].removeprefix("mx_federd ")
    assert package().name == f"mx_federd_{version}_amd64.deb", (package(), version)
    assert run("dpkg-deb", "--field", package(), "Version").strip() == version
    changes = (TOP / "CHANGELOG.md").read_text()
    assert re.search(rf"^## {re.escape(version)}\b", changes, re.MULTILINE), f"CHANGELOG.md has no part on {version}"


def made_alike_twice(folder: Path) -> None:
    """A package that is made again has the same files."""
    contents = [run("dpkg-deb", "--contents", it).split("\n") for it in (package(), made_in(folder))]
    names = [[line.split()[-1] for line in lines if line] for lines in contents]
    assert names[0] == names[1], names


class Root:
    """The package, installed into a root of its own. Its scripts run outside a chroot, with stand-ins for what would change
    this machine."""

    def __init__(self, folder: Path) -> None:
        made = package()
        self.root, self.fake = folder / "root", folder / "fake"
        (self.root / "var/lib/dpkg/updates").mkdir(parents=True)
        (self.root / "var/lib/dpkg/info").mkdir()
        self.fake.mkdir()
        for name in ("status", "available"):
            (self.root / "var/lib/dpkg" / name).touch()
        self.called = self.fake / "called"
        for name in ("adduser", "systemctl"):
            self.stand_in(name, f'echo {name} "$@" >>{shlex.quote(str(self.called))}')
        self.stand_in("getent", "exit 2")
        self.dpkg("--install", made)

    def stand_in(self, name: str, line: str) -> None:
        """Makes a program of this name, which does this."""
        (self.fake / name).write_text(f"#!/bin/sh\n{line}\n")
        (self.fake / name).chmod(0o755)

    def dpkg(self, *words: object) -> str:
        """Runs dpkg over the root."""
        environment = {**os.environ, "PATH": f"{self.fake}:/usr/sbin:/sbin:{os.environ['PATH']}"}
        return run("dpkg", f"--root={self.root}", "--force-script-chrootless", "--force-depends", *words, env=environment)

    def words_of_unit(self) -> list[str]:
        """The words that the unit starts, with what its file of settings says put in."""
        unit = (self.root / UNIT).read_text()
        start = re.search(r"^ExecStart=(.*)$", unit, re.MULTILINE)[1]
        lines = (self.root / "etc/mx_federd/mx_federd.conf").read_text().splitlines()
        settings = dict(line.split("=", 1) for line in lines if line and not line.startswith("#"))
        for name, value in settings.items():
            start = start.replace("${" + name + "}", value).replace("$" + name, value)
        assert "$" not in start, start
        return shlex.split(start)

    def start(self) -> None:
        """Starts the server by the unit's words, over a directory in the root, asks it once, and ends it."""
        first, *words = self.words_of_unit()
        data = self.root / "var/lib/mx_federd"
        assert words[words.index("--data") + 1] == "/var/lib/mx_federd", words
        words[words.index("--data") + 1] = str(data)
        server = subprocess.Popen([str(self.root) + first, *words, "--port", "0"], stdin=subprocess.DEVNULL,
                                  stdout=subprocess.PIPE, stderr=subprocess.PIPE)
        try:
            told = server.stdout.readline().decode()
            assert told.startswith("listening 127.0.0.1:"), (told, server.stderr.read())
            try:
                urllib.request.urlopen(f"http://{told.split()[1]}/x", timeout=SECONDS)
                raise AssertionError("a path that is not there was answered")
            except urllib.error.HTTPError as error:
                assert error.code == 404 and json.load(error)["errcode"] == "M_UNRECOGNIZED"
        finally:
            server.terminate()
            server.wait(SECONDS)
            server.stdout.close()
            server.stderr.close()
        assert list(data.glob("shard-*.db")), list(data.iterdir())


def installed_into(folder: Path) -> None:
    """The package is installed into a fresh root, and makes the server's user."""
    assert "adduser --system --group" in Root(folder).called.read_text()


def unit_is_sound(folder: Path) -> None:
    """systemd finds no fault in the unit."""
    need("systemd-analyze")
    root = Root(folder).root
    copy = folder / "mx_federd.service"
    copy.write_text((root / UNIT).read_text().replace("/usr/bin/mx_federd", str(root / "usr/bin/mx_federd")))
    said = run("systemd-analyze", "verify", "--man=no", copy)
    assert "mx_federd" not in said, said


def manual_is_read(folder: Path) -> None:
    """`man` finds no fault in the page of the manual, which has each subcommand."""
    need("man")
    page = Root(folder).root / "usr/share/man/man1/mx_federd.1.gz"
    said = run("man", "--warnings", "--local-file", page, env={**os.environ, "MANWIDTH": "100", "LC_ALL": "C.UTF-8"})
    assert "warning" not in said, said
    helped = subprocess.run([program(), "--help"], stdout=subprocess.PIPE, stderr=subprocess.STDOUT, text=True, check=False)
    subcommands = re.findall(r"^  ([a-z]+) ", helped.stdout, re.MULTILINE)
    assert subcommands, helped.stdout
    for subcommand in subcommands:
        assert subcommand == "help" or re.search(rf"^ +{subcommand}\b", said, re.MULTILINE), subcommand


def words_are_completed(folder: Path) -> None:
    """bash completes a subcommand and an option."""
    root = Root(folder).root
    file = root / "usr/share/bash-completion/completions/mx_federd"
    for given, wanted in ((["mx_federd", "rep"], "replay"), (["mx_federd", "serve", "--sh"], "--shards")):
        words = f"COMP_WORDS=({shlex.join(given)}); COMP_CWORD={len(given) - 1}"
        script = f"source {shlex.quote(str(file))}; {words}; _mx_federd; echo ${{COMPREPLY[@]}}"
        said = run("bash", "-c", script, env={**os.environ, "PATH": f"{root}/usr/bin:{os.environ['PATH']}"})
        assert said.strip() == wanted, (given, said)


def starts_by_its_unit(folder: Path) -> None:
    """The words of the unit start the server, which answers and has its files where the unit says."""
    Root(folder).start()


def removed_without_its_data(folder: Path) -> None:
    """Once the package is purged the server's data stays, and nothing else."""
    root = Root(folder)
    root.start()
    data = root.root / "var/lib/mx_federd"
    rows = sorted(it.name for it in data.iterdir())
    root.dpkg("--purge", "mx-federd")
    assert not (root.root / "usr/bin/mx_federd").exists() and not (root.root / "etc/mx_federd/mx_federd.conf").exists()
    assert sorted(it.name for it in data.iterdir()) == rows


TESTS = [
    named_by_its_version, made_alike_twice, installed_into, unit_is_sound, manual_is_read, words_are_completed,
    starts_by_its_unit, removed_without_its_data,
]

if __name__ == "__main__":
    sys.exit(run_tests(TESTS, "the package"))
