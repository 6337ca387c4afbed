"""The words of a command, and which file is meant by each."""

# the options that have a value, which may be the next word
VALUED = frozenset("""passphrase passphrase-line key new new-line random slot by to iterations memory digest version hash cipher key-bytes payload
                      uuid sector-size size offset length kdf passes kdf-memory lanes subsystem label iter-time max-memory""".split())
OPTIONS = {"passphrase": ("passphrase", "passphrase-line", "key"), "new": ("new", "new-line"), "random": ("random",)}


class Words:
    """A command line: `words` without the program's name, and what they are."""

    def __init__(self, text):
        self.words = text.split(" ")[1:]
        self.command, self.options, self.operands, self.flags = self.words[0], {}, [], set()
        left = iter(self.words[1:])
        for word in left:
            if not word.startswith("--"):
                self.operands.append(word)
                continue
            name, given, value = word[2:].partition("=")
            if given:
                self.options[name] = value
            elif name in VALUED:
                self.options[name] = next(left)
            else:
                self.flags.add(name)

    def exports(self):
        """Whether a token is written to a file."""
        return self.command == "token" and self.operands[1:2] == ["export"]

    def keeps(self):
        """Whether a file is made of what is kept: a key, a token or a header."""
        return self.command in ("key", "backup") or self.exports()

    def devices(self):
        """The names of the volume and of the target; an empty one means that there is none."""
        first, second = (*self.operands, "", "")[:2]
        if self.command in ("restore", "compare"):
            return second, first
        if self.command == "key":
            return first, self.options.get("to", "")
        if self.exports():
            return first, self.operands[3]
        return first, second if self.command in ("convert", "rebuild", "backup") else ""

    def names(self):
        """The names of the volume, the target, the passphrase, the new passphrase and the random bytes; of `format` also of the key."""
        volume, target = self.devices()
        found = {"volume": volume, "target": target}
        for file, names in OPTIONS.items():
            found[file] = next((self.options[name] for name in names if name in self.options), "")
        if self.command == "format" and "key" in self.options:
            found["passphrase"], found["key"] = self.options.get("passphrase", ""), self.options["key"]
        if self.command == "token" and self.operands[1:2] == ["import"]:
            found["passphrase"] = self.operands[2]
        return found
