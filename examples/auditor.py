"""Checks many images and says which ones need attention: auditor.py IMAGE..

It prints a line of JSON for each image: what it is, or the first fault of its header and what to try next. An image needs attention if its header
isn't accepted, if the two copies of its LUKS2 header disagree, if a keyslot derives too cheaply, or if it has no keyslot. The status is 0 if none
does. It checks as many images at once as there are processors.
"""
import json
import multiprocessing
import sys
from typing import Any, Dict, List

import luks

LEAST_ITERATIONS = 100000
LEAST_KIB = 32 * 1024


def cheap(keyslot: luks.Keyslot) -> bool:
    """Whether passphrases can be tried on it quickly."""
    if keyslot.kdf == "pbkdf2":
        return (keyslot.iterations or 0) < LEAST_ITERATIONS
    return (keyslot.memory or 0) < LEAST_KIB


def audited(name: str) -> Dict[str, Any]:
    try:
        with luks.Volume(name) as volume:
            report, header = volume.check(), volume.header()
    except luks.Fault as fault:
        return {"image": name, "fault": fault.name, "means": fault.meaning, "next": fault.next}
    except OSError as fault:
        return {"image": name, "fault": "Device", "means": str(fault)}
    enabled = [keyslot for keyslot in header.keyslots if keyslot.is_enabled]
    return {"image": name, "version": report.version, "uuid": header.uuid, "copies": report.copies, "keyslots": [it.number for it in enabled],
            "cheap": [it.number for it in enabled if cheap(it)]}


def needs_somebody(found: Dict[str, Any]) -> bool:
    return "fault" in found or found["copies"] not in (None, "in-step") or bool(found["cheap"]) or not found["keyslots"]


def main(names: List[str]) -> int:
    with multiprocessing.Pool() as pool:
        status = 0
        for found in pool.imap(audited, names):
            print(json.dumps(found))
            status |= needs_somebody(found)
    return status


if __name__ == "__main__":
    sys.exit(main(sys.argv[1:]))
