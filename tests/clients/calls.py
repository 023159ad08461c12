"""Random system calls, each on several trees, whose outcomes have to be the same."""
import collections
import contextlib
import ctypes
import errno
import os
import random
import shutil
import stat

from mounts import Failed
from trees import attributes, difference, tree_of

NAMES = ['a', 'b', 'c', 'd', 'e', 'with space', 'ü', 'x' * 255, 'y' * 256, '-', '%41', '\n', '\\', 'A']
MODES = [0o700, 0o755, 0o644, 0o1777, 0o4755, 0o2775, 0o777, 0o000]
# who calls: root, where the test is root, and others
USERS = [0] * 6 + [1000, 2000] if os.getuid() == 0 else [os.getuid()]
# the folders above a tree, so that a link's `..` stay on its file system
ABOVE = '1/2/3/4/5/6'
AT_FDCWD, RENAME_NOREPLACE, RENAME_EXCHANGE = -100, 1, 2
LIBC = ctypes.CDLL(None, use_errno=True)


def renameat2(old, new, flags):
    if LIBC.renameat2(AT_FDCWD, os.fsencode(old), AT_FDCWD, os.fsencode(new), flags):
        raise OSError(ctypes.get_errno(), 'renameat2')


@contextlib.contextmanager
def as_user(user):
    """As another user, group and all."""
    if user == os.geteuid():
        yield
        return
    os.setegid(user)
    os.seteuid(user)
    try:
        yield
    finally:
        os.seteuid(0)
        os.setegid(0)


@contextlib.contextmanager
def opened(path, flags, mode=0o644):
    handle = os.open(path, flags, mode)
    try:
        yield handle
    finally:
        os.close(handle)


def outcome(call, *words):
    """What a call returns, or its errno."""
    try:
        return call(*words)
    except OSError as error:
        return errno.errorcode[error.errno]


@contextlib.contextmanager
def working(tops):
    """Handles of folders, in which a process then works: no call goes through what is above them. In the end it works elsewhere."""
    handles = [os.open(top, os.O_RDONLY | os.O_DIRECTORY) for top in tops]
    try:
        yield handles
    finally:
        os.chdir('/')
        for handle in handles:
            os.close(handle)


class Call:
    """A call with its words, the same for each tree."""

    def __init__(self, rand):
        self.rand = rand
        self.path, self.other = self.some_path(), self.some_path()
        self.mode, self.size, self.time = rand.choice(MODES), rand.randrange(1, 5000), rand.randrange(5000)
        self.owner, self.at, self.bytes = rand.randrange(3) * 1000, rand.choice([0, rand.randrange(9000)]), rand.randbytes(rand.randrange(1, 200))
        self.target = rand.choice([self.other, self.other, 'x' * 4095, 'x' * 4096, '../' * 5 + 'a', 'a', '.'])
        self.user = rand.choice(USERS)

    def some_path(self):
        return '/'.join(self.rand.choice(NAMES) for _ in range(self.rand.choice([1, 1, 2, 2, 3, 4])))

    def mkdir(self, path, other):
        os.mkdir(path, self.mode & 0o777)

    def creat(self, path, other):
        with opened(path, os.O_CREAT | os.O_WRONLY, self.mode & 0o777):
            pass

    def excl(self, path, other):
        with opened(path, os.O_CREAT | os.O_EXCL | os.O_WRONLY, self.mode & 0o777):
            pass

    def trunc(self, path, other):
        with opened(path, os.O_TRUNC | os.O_RDWR) as file:
            os.write(file, self.bytes)

    def unlink(self, path, other):
        os.unlink(path)

    def rmdir(self, path, other):
        os.rmdir(path)

    def rename(self, path, other):
        os.rename(path, other)

    def rename_noreplace(self, path, other):
        renameat2(path, other, RENAME_NOREPLACE)

    def symlink(self, path, other):
        os.symlink(self.target, path)

    def readlink(self, path, other):
        return os.readlink(path)

    def chmod(self, path, other):
        os.chmod(path, self.mode)

    def chown(self, path, other):
        os.chown(path, self.owner, self.owner, follow_symlinks=False)

    def chgrp(self, path, other):
        os.chown(path, -1, self.owner)

    def truncate(self, path, other):
        os.truncate(path, self.size)

    def utime(self, path, other):
        os.utime(path, ns=(self.time, self.time), follow_symlinks=False)

    def listdir(self, path, other):
        return sorted(os.listdir(path))

    def lstat(self, path, other):
        return attributes(os.lstat(path))

    def stat(self, path, other):
        return attributes(os.stat(path))

    def access(self, path, other):
        return os.access(path, self.mode & 7)

    def append(self, path, other):
        with opened(path, os.O_CREAT | os.O_WRONLY | os.O_APPEND) as file:
            os.write(file, self.bytes)

    def pwrite(self, path, other):
        with opened(path, os.O_RDWR) as file:
            os.pwrite(file, self.bytes, self.at)
            return os.pread(file, 10_000, self.at // 2)

    def read(self, path, other):
        with opened(path, os.O_RDONLY) as file:
            return os.read(file, 20_000)

    def held(self, path, other):
        """What is changed through a handle is seen through it."""
        with opened(path, os.O_RDWR) as file:
            os.fchmod(file, self.mode)
            os.ftruncate(file, self.size)
            os.utime(file, ns=(self.time, self.time))
            return attributes(os.fstat(file))

    def unlinked(self, path, other):
        """A file that is open keeps its bytes and attributes without its name."""
        with opened(path, os.O_RDWR) as file:
            os.unlink(path)
            os.pwrite(file, self.bytes, self.at)
            os.fchmod(file, self.mode)
            found = os.fstat(file)
            return found.st_nlink, found.st_size, found.st_mode, found.st_uid, os.pread(file, 10_000, 0), outcome(os.ftruncate, file, self.size)

    def replaced(self, path, other):
        """So does one whose name another takes."""
        with opened(path, os.O_RDONLY) as file:
            os.rename(other, path)
            return os.read(file, 10_000)

    def remove_tree(self, path, other):
        """All of it that may be removed, in whatever order: the first call of it that fails is each file system's own."""
        if self.size % 20 == 0:
            shutil.rmtree(path, ignore_errors=True)


# what changes no byte of a file
NAMING = [Call.mkdir] * 3 + [Call.creat] * 2 + [Call.excl] + [Call.rename] * 3 + [Call.rename_noreplace, Call.symlink, Call.chmod, Call.chown, Call.chgrp,
                                                                            Call.utime, Call.unlink, Call.rmdir, Call.remove_tree]
READING = [Call.readlink, Call.listdir, Call.lstat, Call.stat, Call.access, Call.read]
WRITING = [Call.held, Call.truncate, Call.trunc, Call.append, Call.append, Call.pwrite, Call.unlinked, Call.replaced]
EACH = NAMING + READING + WRITING


class Calls:
    """Calls on some trees, the first of which is asked about."""

    def __init__(self, seed, *tops):
        self.rand, self.made = random.Random(seed), 0
        self.tops = [os.path.join(top, ABOVE) for top in tops]
        self.counts = collections.Counter()
        for top in self.tops:
            os.makedirs(top, exist_ok=True)
            os.chmod(top, 0o777)

    def make(self, count, kinds=EACH):
        with working(self.tops) as tops:
            for _ in range(count):
                self.one(tops, self.rand.choice(kinds), Call(self.rand))

    def one(self, tops, kind, call):
        self.made += 1
        outcomes = []
        for top in tops:
            os.fchdir(top)
            with as_user(call.user):
                outcomes.append(outcome(kind, call, call.path, call.other))
        ours = outcomes[0]
        self.counts[kind.__name__, ours if isinstance(ours, str) and ours in errno.errorcode.values() else 'ok'] += 1
        for wanted in outcomes[1:]:
            if ours != wanted:
                shown = {word: value for word, value in vars(call).items() if word not in ('rand', 'bytes')}
                raise Failed(f'call {self.made}, {kind.__name__} {shown}\n  comes to {ours!r}\n  and not  {wanted!r}')

    def compare(self):
        """The trees are the same to their last attribute and byte."""
        ours, *others = [tree_of(top) for top in self.tops]
        for wanted in others:
            differs = difference(ours, wanted)
            if differs:
                raise Failed(f'after {self.made} calls {differs}')
        return ours
