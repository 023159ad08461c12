"""The bytes of files, by inode number: what CephFS keeps in a data pool. The cluster knows how many there are, and nothing else of them."""
import collections
import os

BLOCK = 65536


def parts(at, size):
    """The parts of a range that lie in one block each: the block's number, and where in it the part begins and ends."""
    while size:
        begin = at % BLOCK
        length = min(size, BLOCK - begin)
        yield at // BLOCK, begin, begin + length
        at, size = at + length, size - length


class Memory:
    """Blocks in memory; one that was never written is of zeros and takes none."""

    def __init__(self):
        self.files = collections.defaultdict(dict)

    def read(self, number, at, size):
        blocks = self.files[number]
        return b''.join(blocks.get(block, bytes(BLOCK))[begin:end] for block, begin, end in parts(at, size))

    def write(self, number, at, data):
        blocks, done = self.files[number], 0
        for block, begin, end in parts(at, len(data)):
            blocks.setdefault(block, bytearray(BLOCK))[begin:end] = data[done:done + end - begin]
            done += end - begin

    def fit(self, number, size):
        """No byte stands at or behind this size."""
        blocks = self.files[number]
        for block in [block for block in blocks if block * BLOCK >= size]:
            del blocks[block]
        if size // BLOCK in blocks:
            begin = size % BLOCK
            blocks[size // BLOCK][begin:] = bytes(BLOCK - begin)

    def remove(self, number):
        self.files.pop(number, None)

    def sync(self, number):
        """Memory outlives nothing."""


class Folder:
    """A file of a folder for each inode number, in hexadecimal as a script has it."""

    def __init__(self, path):
        os.makedirs(path, exist_ok=True)
        self.folder = os.open(path, os.O_RDONLY | os.O_DIRECTORY)

    def opened(self, number, flags):
        return open(os.open(f'{number:x}', flags | os.O_CREAT, 0o600, dir_fd=self.folder), 'r+b', buffering=0)

    def read(self, number, at, size):
        with self.opened(number, os.O_RDWR) as file:
            return os.pread(file.fileno(), size, at).ljust(size, b'\0')

    def write(self, number, at, data):
        with self.opened(number, os.O_RDWR) as file:
            while data:
                done = os.pwrite(file.fileno(), data, at)
                at, data = at + done, data[done:]

    def fit(self, number, size):
        with self.opened(number, os.O_RDWR) as file:
            if os.fstat(file.fileno()).st_size > size:
                os.truncate(file.fileno(), size)

    def remove(self, number):
        try:
            os.unlink(f'{number:x}', dir_fd=self.folder)
        except FileNotFoundError:
            pass

    def sync(self, number):
        with self.opened(number, os.O_RDWR) as file:
            os.fsync(file.fileno())
        os.fsync(self.folder)
