"""What a loss of power leaves of a directory whose program ran with tests/faults/fail_call.c and FAIL_CALL_SYNCED.

What was written to a file before it was brought to the disk is there, whichever thread brought it. Of what was written later
each sector is there or is as it was, whichever was written first, and so is the file's length. A name is there once its
directory was brought to the disk, and before that it is or is not."""

import random
import shutil
from collections.abc import Callable
from pathlib import Path

# What a disk writes whole or not at all.
SECTOR = 512
# Loses something of a directory. The number, of the write at which the program was ended, makes it differ.
Loss = Callable[[Path, int], None]
# Says of each thing that was not brought to the disk whether it is there.
Chance = Callable[[], bool]


def lose_all(data: Path, _number: int) -> None:
    """All that was not brought to the disk is gone."""
    lose(data, lambda: False)


def losing_some(seed: int) -> Loss:
    """Loses nearly all, half, or little of what was not brought to the disk."""
    def lose_some(data: Path, number: int) -> None:
        chance = random.Random(f"{seed} {number}")
        share = chance.choice((0.02, 0.5, 0.98))
        lose(data, lambda: chance.random() < share)
    return lose_some


def bring_all(data: Path) -> None:
    """All that a directory has is on the disk before the program is started."""
    names = [file.name for file in data.iterdir()]
    for name in names:
        shutil.copy(data / name, data / (name + ".synced"))
    (data / "names.synced").write_text("\n".join(names))


def lose(data: Path, is_there: Chance) -> None:
    """Loses what was not brought to the disk and is not there, and takes away what says what was brought."""
    names = data / "names.synced"
    brought = names.read_text().split("\n") if names.exists() else []
    for file in sorted(data.iterdir()):
        if ".synced" in file.name:
            continue
        synced = file.with_name(file.name + ".synced")
        if file.name in brought or is_there():
            file.write_bytes(left_of(synced.read_bytes() if synced.exists() else b"", file.read_bytes(), is_there))
        else:
            file.unlink()
    for synced in data.glob("*.synced*"):
        synced.unlink()


def left_of(old: bytes, new: bytes, is_there: Chance) -> bytes:
    """What is left of a file that was this when it was last brought to the disk, and then that."""
    length = len(new if is_there() else old)
    left = bytearray()
    while len(left) < length:
        size = min(SECTOR, length - len(left))
        left += (new if is_there() else old)[len(left):len(left) + size].ljust(size, b"\0")
    return bytes(left)
