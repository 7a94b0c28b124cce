#!/usr/bin/python3
"""Tests examples/front over loopback, with real keys and TLS: a running server, the front before it, and small servers made in
tests/front/front_servers.py, which sign, serve keys and check what they get.

It runs with Debian's Python, as the front does, and installs the packages that are missing where it may, as root with apt-get.
What it can't test then it says by name, as left out, and ends with status 77 in place of 0."""

import contextlib
import importlib.util
import os
import shutil
import subprocess
import sys

from suite import LEFT_OUT, TOP, run_tests

PACKAGES = {"aiohttp": "python3-aiohttp", "signedjson": "python3-signedjson", "dns": "python3-dnspython"}


def install(packages: list[str]) -> None:
    """Installs Debian's packages, as far as that is possible here."""
    if os.geteuid() != 0 or not shutil.which("apt-get"):
        return
    words = ["apt-get", "-o", "DPkg::Lock::Timeout=300", "-o", "APT::Update::Error-Mode=any"]
    for more in (["update"], ["install", "-y", "--no-install-recommends", *packages]):
        with contextlib.suppress(subprocess.TimeoutExpired):
            subprocess.run([*words, *more], stdin=subprocess.DEVNULL, capture_output=True, timeout=300,
                           env={**os.environ, "DEBIAN_FRONTEND": "noninteractive"})


def missing() -> list[str]:
    """The packages that are not there."""
    importlib.invalidate_caches()
    lacking = [package for module, package in PACKAGES.items() if importlib.util.find_spec(module) is None]
    return lacking + ([] if shutil.which("openssl") else ["openssl"])


def main() -> int:
    """Runs the tests of tests/front, and gives the exit status."""
    if sys.version_info < (3, 11):
        print("front: LEFT OUT, every test: /usr/bin/python3 is older than 3.11")
        return LEFT_OUT
    if missing():
        install(missing())
    if missing():
        print("front: LEFT OUT, every test: %s are not there and could not be installed" % " ".join(missing()))
        return LEFT_OUT
    sys.path[:0] = [str(TOP / "tests/front"), str(TOP / "examples/front")]
    import front_keys
    import front_requests
    import front_rooms
    return run_tests(front_requests.TESTS + front_keys.TESTS + front_rooms.TESTS, "the front")


if __name__ == "__main__":
    sys.exit(main())
