#!/usr/bin/env python3
"""Makes a Debian package of a proved program: `packaging/deb/make_deb.py [PROGRAM] [FOLDER]`.

PROGRAM is `crates/mx_federd/out/mx_federd` unless it is given, FOLDER the one that the package is written to, else the
current one. It needs `dpkg-deb` and prints the package's path. The version is the one that the program prints."""

import gzip
import os
import shutil
import subprocess
import sys
import tempfile
from pathlib import Path

TOP = Path(__file__).resolve().parent.parent.parent
HERE = TOP / "packaging/deb"
PACKAGE = "mx-federd"
CONTROL = """\
Package: {package}
Version: {version}
Architecture: amd64
Maintainer: The developers of Pagbeyi <pagbeyi@localhost>
Installed-Size: {kilobytes}
Depends: libc6 (>= 2.36), adduser
Recommends: systemd
Suggests: python3-aiohttp, python3-signedjson, nginx
Section: net
Priority: optional
Description: Matrix federation room server whose answers are proved
 It hosts rooms of version 6 and 7, judges the events that other servers
 send, resolves state by State Resolution v2, and answers the room part of
 the Server-Server API over plain HTTP on loopback. A program in front of it
 ends TLS and checks signatures; an example of one is in the documentation.
"""
# Where the files of the repository go, and their modes.
FILES = [
    ("packaging/deb/mx_federd.service", "usr/lib/systemd/system/mx_federd.service", 0o644),
    ("packaging/deb/mx_federd.conf", "etc/mx_federd/mx_federd.conf", 0o644),
    ("packaging/deb/completion.bash", "usr/share/bash-completion/completions/mx_federd", 0o644),
]
SCRIPTS = ["postinst", "prerm", "postrm"]
CONFIGURATION = ["/etc/mx_federd/mx_federd.conf"]


def version_of(program: Path) -> str:
    """The number of the line `mx_federd NUMBER` that `--version` prints first."""
    ran = subprocess.run([program, "--version"], stdout=subprocess.PIPE, stderr=subprocess.STDOUT, text=True, check=False)
    words = ran.stdout.split("\n")[0].split(" ")
    if len(words) != 2 or words[0] != "mx_federd":
        sys.exit(f"{program} --version prints no version: {ran.stdout!r}")
    return words[1]


def put(source: Path, target: Path, mode: int) -> None:
    target.parent.mkdir(parents=True, exist_ok=True)
    shutil.copyfile(source, target)
    target.chmod(mode)


def put_packed(source: Path, target: Path) -> None:
    """A page as Debian has it: packed, with no time in it, so that one source makes one package."""
    target.parent.mkdir(parents=True, exist_ok=True)
    with open(target, "wb") as file, gzip.GzipFile("", "wb", 9, file, 0) as packed:
        packed.write(source.read_bytes())
    target.chmod(0o644)


def fill(root: Path, program: Path) -> None:
    """Puts all that is installed below the root of the package."""
    put(program, root / "usr/bin/mx_federd", 0o755)
    for source, target, mode in FILES:
        put(TOP / source, root / target, mode)
    for page in sorted((TOP / "packaging/manual").glob("*.1")):
        put_packed(page, root / f"usr/share/man/man1/{page.name}.gz")
    documents = root / f"usr/share/doc/{PACKAGE}"
    for page in [TOP / "README.md", *sorted((TOP / "docs").glob("*.md"))]:
        put(page, documents / page.name, 0o644)
    put_packed(TOP / "CHANGELOG.md", documents / "changelog.gz")
    for file in sorted((TOP / "examples/front").rglob("*")):
        if file.is_file() and "__pycache__" not in file.parts:
            mode = 0o755 if os.access(file, os.X_OK) else 0o644
            put(file, documents / "examples" / file.relative_to(TOP / "examples"), mode)


def write_control(root: Path, version: str) -> None:
    sizes = [file.stat().st_size for file in root.rglob("*") if file.is_file()]
    control = root / "DEBIAN"
    control.mkdir()
    text = CONTROL.format(package=PACKAGE, version=version, kilobytes=sum(sizes) // 1024)
    (control / "control").write_text(text)
    (control / "conffiles").write_text("".join(f"{it}\n" for it in CONFIGURATION))
    for name in SCRIPTS:
        put(HERE / name, control / name, 0o755)


def main() -> None:
    program = Path(sys.argv[1] if len(sys.argv) > 1 else TOP / "crates/mx_federd/out/mx_federd").resolve()
    folder = Path(sys.argv[2] if len(sys.argv) > 2 else ".").resolve()
    version = version_of(program)
    package = folder / f"mx_federd_{version}_amd64.deb"
    with tempfile.TemporaryDirectory() as place:
        root = Path(place) / "root"
        root.mkdir(mode=0o755)
        os.umask(0o022)
        fill(root, program)
        write_control(root, version)
        words = ["dpkg-deb", "--root-owner-group", "--build", root, package]
        subprocess.run(words, check=True, stdout=subprocess.DEVNULL)
    print(package)


main()
