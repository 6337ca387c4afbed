"""The volumes and the edits that `faults` and `power` try, and which passphrases have to open what is left."""
from common import ITERATIONS, MIB, PBKDF2, Run

LENGTH, PAYLOAD = 4 * MIB + 65536, 4 * MIB
DERIVATION = {"luks1": ITERATIONS, "luks2": PBKDF2}
KIND = "luksFormat -q --cipher aes-xts-plain64 --key-size 256 --offset 8192"
FORMATS = {"luks1": f"{KIND} --type luks1 {ITERATIONS}", "luks2": f"{KIND} --type luks2 --luks2-keyslots-size 2m {PBKDF2}"}
# where a copy of LUKS2's header is damaged: the place of some bytes of its metadata
DAMAGES = {"first": 4096, "second": 16384 + 4096}
# what the edit is to do: (kept, one of these, opens where all went well, doesn't then)
EDITS = {
    "add": ({"one", "two"}, set(), {"three"}, set()),
    "add-by-key": ({"one", "two"}, set(), {"three"}, set()),
    "change": ({"two"}, {"one", "three"}, {"three"}, {"one"}),
    "change-0": ({"two"}, {"one", "three"}, {"three"}, {"one"}),
    "remove": ({"two"}, set(), set(), {"one"}),
    "remove-by": ({"two"}, set(), set(), {"one"}),
    "repair": ({"one", "two"}, set(), set(), set()),
    "label": ({"one", "two"}, set(), set(), set()),
    "erase": (set(), set(), set(), {"one", "two"}),
    "uuid": ({"one", "two"}, set(), set(), set()),
    "uuid-new": ({"one", "two"}, set(), set(), set()),
    "priority": ({"one", "two"}, set(), set(), set()),
    "token": ({"one", "two"}, set(), set(), set()),
}
THEIRS = {
    "add": "cryptsetup luksAddKey -q {derivation} --key-file one V three",
    "change": "cryptsetup luksChangeKey -q {derivation} --key-file one V three",
    "change-0": "cryptsetup luksChangeKey -q {derivation} --key-slot 0 --key-file one V three",
    "remove": "cryptsetup luksKillSlot -q --key-file two V 0",
    "repair": "cryptsetup repair -q V",
    "label": "cryptsetup config -q --label disk V",
    "erase": "cryptsetup luksErase -q V",
    "uuid": "cryptsetup luksUUID -q --uuid 0a1b2c3d-4e5f-1071-8293-a4b5c6d7e8f9 V",
    "priority": "cryptsetup config -q --priority prefer --key-slot 1 V",
    "token": "cryptsetup token import -q --json-file token V",
}
OURS = {
    "add": "LUKS add V --slot 0 --passphrase one --new three --random random --iterations 1000",
    "add-by-key": "LUKS add V --key key-{version} --new three --random random --iterations 1000",
    "change": "LUKS change V --slot 0 --passphrase one --new three --random random --iterations 1000",
    "remove": "LUKS remove V --slot 0 --passphrase one --random random",
    "remove-by": "LUKS remove V --slot 0 --by 1 --passphrase two --random random",
    "repair": "LUKS repair V --random random",
    "label": "LUKS label V disk --random random",
    "erase": "LUKS erase V --all --random random",
    "uuid": "LUKS uuid V 0a1b2c3d-4e5f-1071-8293-a4b5c6d7e8f9 --random random",
    "uuid-new": "LUKS uuid V --random random",
    "priority": "LUKS priority V prefer --slot 1 --random random",
    "token": "LUKS token V import token --random random",
}
# how often the program flushes the volume in each edit: once before it begins, and then after each step; an erasure of LUKS1 has 16 steps, an entry
# and an
# area of each keyslot. The copy of LUKS2's header that is damaged or older is written first, so that a repair has as many steps whichever it is
SYNCS = {
    "luks1": {"add": 3, "add-by-key": 3, "change": 5, "remove": 3, "remove-by": 3, "erase": 17, "uuid": 2, "uuid-new": 2},
    "luks2": {"add": 4, "add-by-key": 4, "change": 5, "remove": 4, "remove-by": 4, "erase": 5, "repair": 3, "label": 3, "uuid": 3, "uuid-new": 3,
              "priority": 3, "token": 3},
}
# what LUKS1 hasn't
OF_LUKS2 = ("label", "repair", "priority", "token")


def payload():
    return bytes(i * 13 % 251 for i in range(LENGTH - PAYLOAD))


class Volumes(Run):
    """A volume of each format with the passphrases `one` in slot 0 and `two` in slot 1, and the files that the commands name."""

    def __init__(self, program, folder):
        super().__init__(program, folder)
        self.put("random", bytes(i * 7 % 251 for i in range(400000)))
        self.put("token", b'{"type":"systemd-recovery","keyslots":["1"]}')
        for version, line in FORMATS.items():
            self.put(version, bytes(PAYLOAD) + payload())
            self.cryptsetup(f"{line} --key-file one {version}")
            self.cryptsetup(f"luksAddKey -q {DERIVATION[version]} --key-file one {version} two")
            self.put(f"key-{version}", self.volume_key(version, "one"))
