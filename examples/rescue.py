"""Saves the headers of the LUKS volumes on a disk: rescue.py DISK FOLDER [PASSPHRASE]

For each volume that begins on the disk it writes a file into the folder: a backup of the header if `check` accepts it, else a header that is made
from what is still whole, for `cryptsetup open --header`. It tries the passphrase on that. PASSPHRASE is a file, and the whole file is the passphrase.
The disk is only read. Each line says what was found at which byte. The status is 0 if each volume was saved. Ctrl-C ends it.
"""
import os
import sys
from typing import Optional

import luks

HEADER = 16 << 20
MEMORY = 1024


def opened(volume: luks.Volume, passphrase: Optional[bytes]) -> str:
    """Says what the passphrase opens."""
    if passphrase is None:
        return ""
    try:
        slot = volume.unlock(passphrase, MEMORY, older=True)
    except luks.Untried as untried:
        return f", {untried}"
    return ", no keyslot opens" if slot is None else f", keyslot {slot} opens"


def rebuilt(volume: luks.Volume, name: str, passphrase: Optional[bytes]) -> str:
    """Makes a header from what is whole, in a new file. If there is none, the file is removed again."""
    with open(name, "xb") as file:
        file.truncate(HEADER)
    try:
        with luks.Volume(name, writes=True, is_detached=True) as target:
            volume.rebuild(target)
            return f"a header was made: {name}" + opened(target, passphrase)
    except BaseException:
        os.unlink(name)
        raise


def saved(disk: str, place: int, folder: str, passphrase: Optional[bytes]) -> str:
    name = os.path.join(folder, str(place))
    with luks.Volume(disk, place) as volume:
        try:
            report = volume.check()
        except luks.Fault as fault:
            return f"refused {fault.name}: " + rebuilt(volume, f"{name}.header", passphrase)
        volume.backup(f"{name}.backup")
        return f"luks{report.version}, backed up: {name}.backup" + opened(volume, passphrase)


def main(disk: str, folder: str, file: Optional[str] = None) -> int:
    passphrase = None
    if file is not None:
        with open(file, "rb") as given:
            passphrase = given.read()
    status = 0
    with luks.Volume(disk) as whole:
        for place in whole.find(progress=lambda done: print(f"searched up to {done}", end="\r", file=sys.stderr)):
            try:
                print(f"{place}: {saved(disk, place, folder, passphrase)}", flush=True)
            except (luks.Fault, OSError) as fault:
                print(f"{place}: {fault}", flush=True)
                status = 1
    return status


if __name__ == "__main__":
    sys.exit(main(*sys.argv[1:]))
