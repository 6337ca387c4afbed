"""Disks of a test: sparse files of which the front is looked at, and what is compared of them."""
import os

BLOCK = 4096


class Disk:
    """A file of which the first `kept` bytes are the test's, and a part further back that may be too."""

    def __init__(self, path, length, parts=(), kept=None):
        self.path, self.kept, self.back = path, length if kept is None else kept, (0, 0)
        with open(path, "wb") as file:
            file.truncate(length)
        for at, part in parts:
            self.put(at, part[:max(self.kept - at, 0)])

    @classmethod
    def of_file(cls, path):
        """The disk that is in this file by now."""
        disk = cls.__new__(cls)
        disk.path, disk.kept, disk.back = path, os.stat(path).st_size, (0, 0)
        return disk

    def put(self, at, part):
        if at + len(part) > self.kept:
            raise ValueError("outside of the volume")
        self.put_anywhere(at, part)

    def put_anywhere(self, at, part):
        with open(self.path, "r+b") as file:
            os.pwrite(file.fileno(), part, at)

    def length(self):
        return os.stat(self.path).st_size

    def read(self, start, stop):
        with open(self.path, "rb") as file:
            return os.pread(file.fileno(), stop - start, start)

    def part(self, start, stop):
        if not start <= stop <= self.kept:
            raise ValueError("outside of the volume")
        return self.read(start, stop)

    def cut(self, length):
        if length > self.kept:
            raise ValueError("outside of the volume")
        self.kept = length
        os.truncate(self.path, length)

    def extents(self):
        """The file's length, and the pieces of it that aren't holes."""
        found, at, end = [], 0, self.length()
        with open(self.path, "rb") as file:
            while at < end:
                try:
                    at = os.lseek(file.fileno(), at, os.SEEK_DATA)
                except OSError:
                    break
                hole = os.lseek(file.fileno(), at, os.SEEK_HOLE)
                found.append((at, os.pread(file.fileno(), hole - at, at)))
                at = hole
        return end, found

    def restore(self, extents):
        end, found = extents
        with open(self.path, "r+b" if os.path.exists(self.path) else "w+b") as file:
            file.truncate(0)
            file.truncate(end)
            for at, part in found:
                os.pwrite(file.fileno(), part, at)

    def remove(self):
        if os.path.exists(self.path):
            os.unlink(self.path)

    def front(self):
        """What is kept of it, to be compared: how much, and its blocks that aren't zeros."""
        return self.kept, blocks(self.extents()[1], self.kept)


def front_of(disk):
    return disk.front() if disk else (0, {})


def blocks(extents, end):
    """The blocks before this end that aren't zeros."""
    found = {}
    for at, part in extents:
        for begin in range(at - at % BLOCK, min(at + len(part), end), BLOCK):
            piece = part[max(begin - at, 0):min(begin + BLOCK, end) - at].rstrip(b"\0")
            if piece:
                found[begin] = piece
    return found
