"""One use of the program: a subcommand, its options and further words, by name."""


# what a use may have beside its name, and what stands there where it hasn't; `file` is that of the simulator's flash,
# and `second` where a second image lies, and its bytes
GIVEN = {**dict.fromkeys(("force", "verify", "keep", "hex", "skip_blank", "all", "trusts", "to_change", "no_board", "is_fresh"), False),
         **dict.fromkeys(("range", "to", "go", "again", "out", "image", "pages", "count", "address", "kind", "stop", "number", "board", "second")), "file": "F"}


class Use:
    def __init__(self, name, **given):
        assert given.keys() <= GIVEN.keys()
        self.__dict__.update(GIVEN, name=name, **given)

    def keeps(self):
        return self.keep or self.to is not None

    def is_hex(self):
        return self.hex or self.out.endswith(".hex")

    def range_word(self):
        start, length = self.range
        return hex(start) + ("" if length is None else ":%d" % length)

    def words(self):
        found = [self.name, "--table", "T", "--device", "sim:%s:%s" % (self.number, self.file), "--journal", "J"]
        for word, value in (("--stop", self.stop), ("--again", self.again), ("--keep-to", self.to), ("--board", self.board),
                            ("-S", self.range and self.range_word()), ("--go", None if self.go is None else "0x%08X" % self.go)):
            if value is not None:
                found += [word, str(value)]
        for word, is_given in (("-f", self.force), ("-v", self.verify), ("--keep", self.keep), ("--hex", self.hex),
                               ("--skip-blank", self.skip_blank), ("--all", self.all), ("--no-board", self.no_board),
                               ("--fresh", self.is_fresh), ("--to-change", self.to_change), ("--trust-journal", self.trusts)):
            if is_given:
                found.append(word)
        second = None if self.second is None else "K@0x%08x" % self.second[0]
        address = None if self.address is None else "0x%08X" % self.address
        further = (self.out, self.image, second, *(self.pages or ()), self.count, address, self.kind)
        return found + [str(word) for word in further if word is not None]
