"""What examples/mount asks of a cluster, answered from Python's dictionaries: a directory is one of names, sorted for a listing."""
import bisect
import errno
import os


def raises(number):
    raise OSError(number, os.strerror(number))


class Plain:
    """In place of `Cluster`, with its calls. It takes the same lines and gives the same words; errnos are those that the measured calls come to."""
    chaos = store = fault = None

    def __init__(self):
        self.directories, self.next, self.flushed = {'1': {}}, 1 << 40, lambda: None

    def request(self, operation):
        word, directory, *rest = operation.split()
        names = self.directories.get(directory)
        if names is None:
            raises(errno.ESTALE)
        return getattr(self, word)(names, *rest)

    def there(self, names, name):
        return names.get(name) or raises(errno.ENOENT)

    def entry(self, it):
        return ['entry', *it[:5], 'owner', *it[5:]]

    def put(self, names, name, kind, mode, size, words):
        if name in names:
            raises(errno.EEXIST)
        number = f'{self.next:x}'
        self.next += 1
        names[name] = it = [number, kind, mode, size, '0', words[1], words[3]]
        return it

    def lookup(self, names, name):
        return self.entry(self.there(names, name))

    def create(self, names, name, mode, *owner):
        return self.entry(self.put(names, name, 'file', mode, '0', owner))

    def mkdir(self, names, name, mode, *owner):
        it = self.put(names, name, 'dir', mode, '0', owner)
        self.directories[it[0]] = {}
        return self.entry(it)

    def setattr(self, names, name, *words):
        it = self.there(names, name)
        for word, value in zip(words[::2], words[1::2]):
            it['mode size mtime uid gid'.split().index(word) + 2] = value
        return self.entry(it)

    def unlink(self, names, name):
        self.there(names, name)
        del names[name]
        return ['done']

    def rmdir(self, names, name):
        number = self.there(names, name)[0]
        if self.directories[number]:
            raises(errno.ENOTEMPTY)
        del self.directories[number], names[name]
        return ['done']

    def rename(self, names, name, to, to_name):
        self.directories[to][to_name] = self.there(names, name)
        if (names, name) != (self.directories[to], to_name):
            del names[name]
        return ['done']

    def readdir(self, names, after, most):
        there = sorted(names)
        begin = 0 if after == '-' else bisect.bisect(there, after)
        page = there[begin:begin + int(most)]
        follows = 'more' if begin + len(page) < len(there) else 'end'
        return ['entries', str(len(page)), follows, *(f'{name}:{names[name][0]}' for name in page)]

    def close(self):
        """Nothing is kept."""
