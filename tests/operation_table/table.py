"""The operation table, written as a plain, slow program over a few rows in no order, from the table's text: it shares nothing
with the code that it is compared with.
"""

ROOT = 1
FIRST = 1 << 40


class Entry:
    """A row of the tree: a directory and a name, and the inode that stands there."""

    def __init__(self, directory, name, ino, owners, kind, mode, size=0, target=None):
        self.directory, self.name, self.ino, self.kind, self.mode = directory, name, ino, kind, mode
        self.size, self.mtime, self.target = size, 0, target
        self.uid, self.gid, self.pin = int(owners.get('uid', 0)), int(owners.get('gid', 0)), None

    def __str__(self):
        owner = f' owner {self.uid} {self.gid}' if self.uid or self.gid else ''
        pin = f' pin {self.pin}' if self.pin is not None else ''
        return f'entry {self.ino:x} {self.kind} {self.mode:o} {self.size} {self.mtime}{owner}{pin}'


class Table:
    def __init__(self, limit=1048576):
        self.limit, self.rows, self.next_ino = limit, [], FIRST

    def is_dir(self, ino):
        return ino == ROOT or any(row.ino == ino and row.kind == 'dir' for row in self.rows)

    def find(self, directory, name):
        return next((row for row in self.rows if (row.directory, row.name) == (directory, name)), None)

    def inside(self, directory):
        return [row for row in self.rows if row.directory == directory]

    def leads_to(self, directory, below):
        """Whether the one directory is the other, or above it."""
        while below not in (directory, ROOT):
            below = next(row.directory for row in self.rows if row.ino == below)
        return below == directory

    def answer(self, line):
        """What an operation answers. The tree is the one after it."""
        operation, directory, *words = line.split()
        directory = int(directory, 16)
        named = [directory, int(words[1], 16)] if operation == 'rename' else [directory]
        if not all(map(self.is_dir, named)):
            return 'errno 116'
        return getattr(self, operation)(directory, *words)

    def lookup(self, directory, name):
        return str(self.find(directory, name) or 'errno 2')

    def readdir(self, directory, after, most):
        rows = sorted(self.inside(directory), key=lambda row: row.name)
        rows = [row for row in rows if after == '-' or row.name > after]
        shown = [f' {row.name}:{row.ino:x}' for row in rows[:int(most)]]
        return f'entries {len(shown)} {"more" if len(rows) > len(shown) else "end"}{"".join(shown)}'

    def readlink(self, directory, name):
        row = self.find(directory, name)
        return 'errno 2' if not row else 'errno 22' if row.kind != 'link' else f'target {row.target}'

    def create(self, directory, name, mode, *owners):
        return self.make(directory, name, owners, 'file', int(mode, 8))

    def mkdir(self, directory, name, mode, *owners):
        return self.make(directory, name, owners, 'dir', int(mode, 8))

    def symlink(self, directory, name, target, *owners):
        return self.make(directory, name, owners, 'link', 0o777, len(target.replace('%20', ' ')), target)

    def make(self, directory, name, owners, *inode):
        if self.find(directory, name):
            return 'errno 17'
        if len(self.inside(directory)) >= self.limit:
            return 'errno 28'
        self.rows.append(Entry(directory, name, self.next_ino, dict(zip(owners[::2], owners[1::2])), *inode))
        self.next_ino += 1
        return str(self.rows[-1])

    def setattr(self, directory, name, *attributes):
        row = self.find(directory, name)
        if not row or (row.kind != 'file' and 'size' in attributes):
            return 'errno 2' if not row else 'errno 21' if row.kind == 'dir' else 'errno 22'
        for attribute, value in zip(attributes[::2], attributes[1::2]):
            setattr(row, attribute, int(value, 8 if attribute == 'mode' else 10))
        return str(row)

    def setpin(self, directory, name, rank):
        row = self.find(directory, name)
        if not row or row.kind != 'dir':
            return 'errno 20' if row else 'errno 2'
        if int(rank) > 15:
            return 'errno 22'
        row.pin = None if rank == '-1' else int(rank)
        return str(row)

    def unlink(self, directory, name):
        row = self.find(directory, name)
        if not row or row.kind == 'dir':
            return 'errno 21' if row else 'errno 2'
        self.rows.remove(row)
        return 'done'

    def rmdir(self, directory, name):
        row = self.find(directory, name)
        if not row or row.kind != 'dir':
            return 'errno 20' if row else 'errno 2'
        if self.inside(row.ino):
            return 'errno 39'
        self.rows.remove(row)
        return 'done'

    def rename(self, directory, name, to_directory, to_name):
        to = (int(to_directory, 16), to_name)
        row, replaced = self.find(directory, name), self.find(*to)
        if not row:
            return 'errno 2'
        if row is replaced:
            return 'done'
        if row.kind == 'dir' and self.leads_to(row.ino, to[0]):
            return 'errno 22'
        if replaced:
            if row.kind == 'dir' and replaced.kind != 'dir':
                return 'errno 20'
            if row.kind != 'dir' and replaced.kind == 'dir':
                return 'errno 21'
            if self.inside(replaced.ino):
                return 'errno 39'
            self.rows.remove(replaced)
        elif directory != to[0] and len(self.inside(to[0])) >= self.limit:
            return 'errno 28'
        row.directory, row.name = to
        return 'done'

    def removals(self):
        """Lines that take each entry away, once there is nothing in it."""
        rows = list(self.rows)
        while rows:
            row = next(row for row in rows if not any(other.directory == row.ino for other in rows))
            yield f'{"rmdir" if row.kind == "dir" else "unlink"} {row.directory:x} {row.name}'
            rows.remove(row)
