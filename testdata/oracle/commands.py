"""Command lines, as the models take them."""


class Words:
    """A command line."""

    def __init__(self, text):
        words = text.split(" ")[1:]
        self.command, self.flags, self.options, self.operands = words[0], set(), {}, []
        for word in words[1:]:
            name, _, value = word.removeprefix("--").partition("=")
            if not word.startswith("--"):
                self.operands.append(word)
            elif "=" in word:
                self.options[name] = value
            else:
                self.flags.add(name)
        self.detached = "detached" in self.flags

    def number(self, name, otherwise=None):
        return int(self.options[name]) if name in self.options else otherwise

    def makes(self):
        return self.command in ("convert", "rebuild")

    def tries(self):
        return self.command == "rebuild" and "passphrase" in self.options

    def searches(self):
        return self.tries() and "thorough" in self.flags

    def is_luks1(self):
        """Whether LUKS1 is meant, by one of its fields or by a passphrase by which nothing is sought."""
        fields = set(self.options) & {"cipher", "hash", "key-bytes", "payload"}
        return self.command == "rebuild" and "sector-size" not in self.options and (bool(fields) or self.tries() and not self.searches())

    def segment(self):
        """The segment that is given of LUKS2: where it begins, in bytes, its cipher, and how long its sectors are."""
        if "sector-size" not in self.options:
            return None
        return 512 * self.number("payload", 0), self.options["cipher"].encode(), self.number("sector-size", 0)
