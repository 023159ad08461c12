"""What anybody sees of a tree."""
import hashlib
import os
import stat

# the tests set no time behind this one, and no clock shows one before it
FIRST_TIME_OF_A_CLOCK = 1_000_000


def time_of(found):
    """A time that was set, or that it is of a clock."""
    return found.st_mtime_ns if found.st_mtime_ns < FIRST_TIME_OF_A_CLOCK else 'of a clock'


def attributes(found, exact_times=False):
    """What of an `lstat` has to be alike on two file systems: of a directory's size and links each has an idea of its own."""
    own = () if stat.S_ISDIR(found.st_mode) else (found.st_size, found.st_nlink)
    return found.st_mode, found.st_uid, found.st_gid, found.st_mtime_ns if exact_times else time_of(found), *own


def content(path, mode):
    """A link's target, or the sum of a file's bytes."""
    if stat.S_ISLNK(mode):
        return os.readlink(path)
    if stat.S_ISREG(mode):
        with open(path, 'rb') as file:
            return hashlib.sha256(file.read()).hexdigest()
    return None


def tree_of(top, exact_times=False):
    """Each path below a folder, with its attributes and its content."""
    tree, work = {}, os.getcwd()
    os.chdir(top)
    try:
        gather('', tree, exact_times)
    finally:
        os.chdir(work)
    return tree


def gather(folder, tree, exact_times):
    for name in os.listdir(folder or '.'):
        path = os.path.join(folder, name)
        found = os.lstat(path)
        tree[path] = attributes(found, exact_times), content(path, found.st_mode)
        if stat.S_ISDIR(found.st_mode):
            gather(path, tree, exact_times)


def difference(ours, wanted):
    """The first path at which two trees differ, and how, or nothing."""
    for path in sorted(ours.keys() | wanted.keys()):
        if ours.get(path) != wanted.get(path):
            return f'at {path[:80]!r} there is {ours.get(path)}, and not {wanted.get(path)}'
    return None
