"""The step `$`: the command's files are put into the working folder under the names that its words have, and it runs."""
import fcntl
import os
import re

from suite import failing
from suite.disks import Disk
from suite.making import new_path
from suite.program import TARGET, VOLUME, WATCH, put
from suite.words import Words

SECRET = 8
DEVICES = {"volume": VOLUME, "target": TARGET, "watch": WATCH}


def begin(session):
    session.laid_files, session.asked, session.left = {}, None, 0


# --- what a command told

def lines(before, text):
    """Each line behind this sign; a last one without a line feed is followed by a line that says so."""
    found = b"".join(before + line for line in re.findall(rb"[^\n]*\n|[^\n]+$", text))
    return found + (b"\n\\ no line feed\n" if text and not text.endswith(b"\n") else b"")


class Told:
    """What a command printed, its status, and whether it printed a part of a secret."""

    def __init__(self, ran, secrets):
        self.out, self.err, self.status = ran.out, ran.err, ran.status
        self.has_secret = any(has_part(secret, text) for secret in secrets for text in (self.out, self.err))

    def key(self):
        return self.out, self.err, self.status, self.has_secret

    def is_refused_memory(self):
        """If the last memory is refused, not even the answer is printed."""
        return self.status == 4 and self.out in (b"no memory\n", b"")

    def text(self):
        end = b"= %d" % self.status + (b" with a secret" if self.has_secret else b"")
        return lines(b"", self.out) + lines(b"! ", self.err) + end


def has_part(secret, text):
    return bool(text) and any(secret[at:at + SECRET] in text for at in range(len(secret) - SECRET + 1))


def secrets(files):
    """Passphrases, random bytes of which a volume key is made, and the key of the small volumes."""
    def front(name, most):
        return (files[name] or b"")[:most]
    return [front("passphrase", 128), front("new", 128), front("random", 32), bytes(range(32))]


def without_range(ran, names):
    """Takes the line away that tells which bytes couldn't be read, from standard error and an object, if the shim let these fail first."""
    for name, device in DEVICES.items():
        for at, length in ran.unread[device][:1]:
            line = f"luks: {names.get(name)}: bytes {at} to {at + length - 1} couldn't be read".encode()
            ran.err = ran.err.replace(line + b"\n", b"", 1)
            ran.out = ran.out.replace(b',"' + line + b'"', b"", 1)


# --- its files

class Laying:
    """The files of one command, as far as they are put down, and the shim's settings for them."""

    def __init__(self, session, words, trouble):
        self.session, self.words, self.names = session, words, words.names()
        self.unread = dict(trouble.get("unread", ()))
        self.args, self.denied, self.moved, self.made, self.lock = words.words, [], [], [], None
        self.settings = failing.settings(trouble, self.names)
        self.disks = {"volume": session.volume, "target": session.target}
        self.is_block = "block" in trouble
        self.makes_target = words.keeps() and not self.is_block and "over" not in words.flags and self.unread.get("target") != "exists"

    def lay(self):
        for name in ("passphrase", "new", "random", "volume", "target"):
            file = self.names[name]
            if file and file != "-" and not file.startswith("/dev"):
                self.lay_file(name, file, self.unread.get(name))
        if self.names.get("key"):
            # the key's file of `format` is the new one
            put(self.names["key"], self.session.files["new"] or b"")
            self.made.append(self.names["key"])
        if self.is_block:
            self.as_block_device(self.names["target"])
        if self.denied:
            self.settings["deny"] = ",".join(self.denied)
        # the clock is the shim's, so that times that are told are always alike
        self.settings["clock"] = 1
        self.settings["devices"] = ":".join(self.names[name] or "-" for name in ("volume", "target", "random"))

    def lay_file(self, name, file, why):
        if why in failing.ERRORS:
            self.denied.append(f"{file}:{failing.ERRORS[why]}")
        if why in OTHERWISE:
            self.clear(file)
            OTHERWISE[why](self, name, file)
        elif name == "target" and file == self.names["volume"]:
            return
        elif name == "target" and self.makes_target:
            self.clear(file)
        elif name in self.disks:
            self.lay_disk(name, file)
        elif self.session.files[name] is not None:
            self.write(file, self.session.files[name])
        if why == "edited":
            self.lock = open(file, "rb")
            fcntl.flock(self.lock, fcntl.LOCK_EX)

    def write(self, file, data):
        """Writes a file, unless it has this already."""
        if self.session.laid_files.get(file) is not data or not os.path.exists(file):
            put(file, data)
            self.session.laid_files[file] = data

    def clear(self, file):
        if os.path.lexists(file):
            os.unlink(file)
        self.session.laid_files.pop(file, None)

    def lay_disk(self, name, file):
        disk = self.disks[name]
        if disk and os.path.exists(disk.path) and disk.path != file:
            if file not in (it.path for it in self.disks.values() if it):
                self.clear(file)
            os.rename(disk.path, file)
            self.moved.append((disk.path, file))

    def as_block_device(self, name):
        """The file looks like a block device."""
        self.settings["block"], self.settings["root"] = f"{name}:7:3", os.getcwd() + "/@system"
        os.makedirs("@system/run", exist_ok=True)
        os.makedirs("@system/sys/dev/block/7:3", exist_ok=True)
        put("@system/sys/dev/block/7:3/ro", b"0\n")

    # what takes a file's place if it isn't read

    def absent(self, name, file):
        """There are no random bytes."""
        if name != "random":
            raise ValueError("only random bytes can be absent")
        self.write(file, b"")

    def same_file(self, _, file):
        self.lay_disk("volume", self.names["volume"])
        os.link(self.names["volume"], file)
        self.made.append(file)

    def folder(self, _, file):
        os.mkdir(file)
        self.made.append(file)

    def no_volume(self, name, file):
        os.mkfifo(file) if name in self.disks else os.symlink("/dev/tty", file)
        self.made.append(file)

    def not_found(self, *_):
        """There is no such file."""

    # what is left

    def take_up(self):
        """The disks get their own names back; a file that was made is the target."""
        if self.lock:
            self.lock.close()
        for file in self.made:
            if os.path.isdir(file) and not os.path.islink(file):
                os.rmdir(file)
            else:
                self.clear(file)
        for path, file in reversed(self.moved):
            if os.path.exists(file):
                os.rename(file, path)
        target = self.names["target"]
        if self.makes_target and os.path.isfile(target):
            path = new_path(self.session)
            os.rename(target, path)
            if self.session.target:
                self.session.target.remove()
            self.session.target = Disk.of_file(path)


OTHERWISE = {"absent": Laying.absent, "same-file": Laying.same_file, "folder": Laying.folder, "no-volume": Laying.no_volume,
             "not-found": Laying.not_found}


def run_command(session, text, trouble=None, **settings):
    """Runs the command of this text; what it told. `session.asked` has its calls, `session.left` how many random bytes are left."""
    laying = Laying(session, Words(text), trouble or {})
    try:
        laying.lay()
        ran = session.program.run(laying.args, **{**laying.settings, **settings})
    finally:
        laying.take_up()
    session.asked, session.left = ran, len(session.files["random"] or b"") - ran.taken
    without_range(ran, laying.names)
    return Told(ran, secrets(session.files))


def command(session, line, text):
    session.says(line)
    session.emit(run_command(session, text, failing.take_trouble(session)).text() + b"\n")


STEPS = {"$": command}
