"""What the Python cases share: small volumes, and a folder that stands for /sys and /run so that files look like block devices (see SHIM_ROOT)."""
import os
import shutil

from suite.samples import small
from suite.disks import Disk

SYSTEM = "@system"


def lay(path, name="luks2", parts=(), length=66048):
    """Makes the file with the small volume of this name, and these parts over it."""
    return Disk(path, length, [*(small(name) if name else ()), *parts])


def put_text(path, text):
    os.makedirs(os.path.dirname(path) or ".", exist_ok=True)
    with open(path, "w", encoding="utf-8") as file:
        file.write(text)


def system(*numbers, **files):
    """The folder that stands for the system: it has block devices of these numbers, none of them read-only."""
    remove(SYSTEM)
    os.makedirs(os.path.join(SYSTEM, "run"))
    for number in numbers:
        put_text(f"{SYSTEM}/sys/dev/block/{number}/ro", "0\n")
    return os.path.abspath(SYSTEM)


def remove(path):
    if os.path.isdir(path) and not os.path.islink(path):
        shutil.rmtree(path)
    elif os.path.lexists(path):
        os.unlink(path)
