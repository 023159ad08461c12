"""What the kernel asks of a file system, as requests to the cluster.

The kernel names an inode by its number and the cluster by a directory and a name, so for each number that the kernel knows there is a `Node`, as a
client's dentry cache has it. No name is remembered but those: each look-up is asked of the cluster.
"""
import errno
import functools
import os
import stat
import time

import pyfuse3

from words import escaped, inode_of, page_of, unescaped

ROOT = pyfuse3.ROOT_INODE
PAGE = 256
# seconds for which the kernel believes what it was told of an inode. It asks again where it has changed the inode itself, and no other client does
ATTRIBUTES_HOLD = 1_000_000
LAST_TIME = (1 << 64) - 1
PIN = b'ceph.dir.pin'
DOTS = b'.', b'..'


class Node:
    """An inode that the kernel knows."""

    def __init__(self, inode, place):
        self.seen = inode       # as the cluster last told it
        self.place = place      # the number of its directory and its name there
        self.lookups = 0        # how often the kernel was told of it, and hasn't forgotten
        self.is_gone = False    # it has no name any more, but is open, or somebody's working directory
        self.is_fitted = False  # its bytes are no more than its size: after a crash there may be more, from after the last flush


class Listing:
    """A directory as one reader goes through it, page after page. Each page begins behind the last name of the one before, so no name that stays
    is left out or comes twice, whatever comes and goes meanwhile."""

    def __init__(self, cluster, number):
        self.cluster, self.number = cluster, number
        self.rewind()

    def rewind(self):
        self.names, self.has_more = list(DOTS), True

    def name_at(self, position):
        """The name there, or none behind the last."""
        while position >= len(self.names) and self.has_more:
            after = escaped(self.names[-1]) if self.names[2:] else '-'
            page, self.has_more = page_of(self.cluster.request(f'readdir {self.number:x} {after} {PAGE}'))
            self.names += page
        return self.names[position] if position < len(self.names) else None


def answered(handler):
    """A handler whose faults are told to the kernel by their numbers."""
    @functools.wraps(handler)
    async def call(*words):
        try:
            return await handler(*words)
        except OSError as error:
            raise pyfuse3.FUSEError(error.errno or errno.EIO) from error
    return call


def raises(number):
    raise OSError(number, os.strerror(number))


class FileSystem(pyfuse3.Operations):
    def __init__(self, cluster, data, root):
        """`root` is what is shown of the root directory, which has no name at which the cluster could keep it."""
        super().__init__()
        self.cluster, self.data = cluster, data
        self.nodes = {ROOT: Node(root, None)}
        self.listings = {}
        self.removed = []       # numbers whose bytes go once it is in the store that they are no file's
        cluster.flushed = self.drop_removed

    # ---- what the cluster says

    def look(self, directory, name):
        return inode_of(self.cluster.request(f'lookup {directory:x} {escaped(name)}'))

    def told(self, inode, place):
        """The kernel gets to know an inode."""
        node = self.nodes.get(inode.number)
        if node:
            node.seen, node.place = inode, place
        else:
            node = self.nodes[inode.number] = Node(inode, place)
        node.lookups += 1
        self.note(node)
        return self.attributes(node)

    def note(self, node):
        """A directory in which chaos may work."""
        if self.cluster.chaos and stat.S_ISDIR(node.seen.kind):
            directory, name = node.place
            self.cluster.chaos.note(node.seen.number, f'{directory:x} {escaped(name)}')

    def attributes(self, node):
        it, shown = node.seen, pyfuse3.EntryAttributes()
        shown.st_ino, shown.st_mode, shown.st_size, shown.st_uid, shown.st_gid = it.number, it.kind | it.mode, it.size, it.uid, it.gid
        # one time is kept; one link says of a directory that its subdirectories aren't counted
        shown.st_atime_ns = shown.st_mtime_ns = shown.st_ctime_ns = it.mtime
        shown.st_nlink = 0 if node.is_gone else 1
        shown.st_blksize, shown.st_blocks = 4096, (it.size + 511) // 512
        shown.entry_timeout, shown.attr_timeout = 0, ATTRIBUTES_HOLD
        return shown

    def refresh(self, node):
        """What the cluster says of an inode now, where it has a name."""
        if node.place and not node.is_gone:
            inode = self.look(*node.place)
            if inode.number != node.seen.number:
                raises(errno.ESTALE)
            node.seen = inode
        return node

    def alter(self, node, **changes):
        """Gives an inode attributes, in the order of a script's line: at the cluster, but where it has no name there."""
        if node.place and not node.is_gone:
            directory, name = node.place
            words = ' '.join(f'{word} {value:o}' if word == 'mode' else f'{word} {value}' for word, value in changes.items())
            node.seen = inode_of(self.cluster.request(f'setattr {directory:x} {escaped(name)} {words}'))
        else:
            for word, value in changes.items():
                setattr(node.seen, word, value)

    def touch(self, directory):
        """A directory in which a name has changed."""
        self.alter(self.nodes[directory], mtime=time.time_ns())

    # ---- names

    @answered
    async def lookup(self, directory, name, ctx):
        return self.told(self.look(directory, name), (directory, name))

    @answered
    async def getattr(self, number, ctx):
        return self.attributes(self.refresh(self.nodes[number]))

    async def forget(self, counts):
        for number, count in counts:
            node = self.nodes.get(number)
            if node and number != ROOT:
                node.lookups -= count
                if node.lookups <= 0:
                    del self.nodes[number]
                    if node.is_gone:
                        self.removed.append(number)

    def drop_removed(self):
        while self.removed:
            self.data.remove(self.removed.pop())

    def make(self, line, directory, name, ctx, mode=None, target=None):
        """A new file, directory or link, whose group and mode come from its directory where that says so by its set-group-ID bit."""
        above, group = self.nodes[directory].seen, ctx.gid
        if above.mode & stat.S_ISGID:
            group = above.gid
            mode = mode | stat.S_ISGID if line == 'mkdir' else mode
        how = escaped(target) if target is not None else f'{stat.S_IMODE(mode):o}'
        place = f'{directory:x} {escaped(name)}'
        inode = inode_of(self.cluster.request(f'{line} {place} {how} uid {ctx.uid} gid {group}'))
        # what a crash left of another file of this number
        self.data.remove(inode.number)
        self.told(inode, (directory, name))
        node = self.nodes[inode.number]
        self.alter(node, mtime=time.time_ns())
        self.touch(directory)
        return self.attributes(node)

    @answered
    async def mkdir(self, directory, name, mode, ctx):
        return self.make('mkdir', directory, name, ctx, mode=mode)

    @answered
    async def mknod(self, directory, name, mode, rdev, ctx):
        if not stat.S_ISREG(mode):
            raises(errno.EPERM)
        return self.make('create', directory, name, ctx, mode=mode)

    @answered
    async def create(self, directory, name, mode, flags, ctx):
        attributes = self.make('create', directory, name, ctx, mode=mode)
        return pyfuse3.FileInfo(fh=attributes.st_ino), attributes

    @answered
    async def symlink(self, directory, name, target, ctx):
        return self.make('symlink', directory, name, ctx, target=target)

    @answered
    async def link(self, number, directory, name, ctx):
        raises(errno.EPERM)

    @answered
    async def readlink(self, number, ctx):
        directory, name = self.nodes[number].place
        return unescaped(self.cluster.request(f'readlink {directory:x} {escaped(name)}')[1])

    def lose(self, inode):
        """An inode has lost its name. What has it open goes on with it as it was."""
        node = self.nodes.get(inode.number)
        if node:
            node.seen, node.is_gone = inode, True
        else:
            self.removed.append(inode.number)

    @answered
    async def unlink(self, directory, name, ctx):
        inode = self.look(directory, name)
        self.cluster.request(f'unlink {directory:x} {escaped(name)}')
        self.lose(inode)
        self.touch(directory)

    @answered
    async def rmdir(self, directory, name, ctx):
        inode = self.look(directory, name)
        self.cluster.request(f'rmdir {directory:x} {escaped(name)}')
        self.lose(inode)
        self.touch(directory)

    @answered
    async def rename(self, directory, name, to, to_name, flags, ctx):
        if flags & ~pyfuse3.RENAME_NOREPLACE:
            raises(errno.EINVAL)
        inode, replaced = self.look(directory, name), self.there(to, to_name)
        if replaced and flags:
            raises(errno.EEXIST)
        self.cluster.request(f'rename {directory:x} {escaped(name)} {to:x} {escaped(to_name)}')
        if replaced and replaced.number != inode.number:
            self.lose(replaced)
        node = self.nodes.get(inode.number)
        if node:
            node.place = to, to_name
            self.note(node)
        for changed in {directory, to}:
            self.touch(changed)

    def there(self, directory, name):
        """What has a name, if anything has."""
        try:
            return self.look(directory, name)
        except FileNotFoundError:
            return None

    # ---- attributes

    @answered
    async def setattr(self, number, given, fields, handle, ctx):
        node, changes = self.nodes[number], {}
        if fields.update_mode:
            changes['mode'] = stat.S_IMODE(given.st_mode)
        if fields.update_size:
            self.resize(node, given.st_size)
            changes['size'] = given.st_size
            # who has a file open changes it even where its size stays
            if handle is not None or given.st_size != node.seen.size:
                changes['mtime'] = time.time_ns()
        if fields.update_mtime:
            # a time that can't be kept becomes the nearest that can, as the kernel does it for its own file systems
            changes['mtime'] = min(max(0, given.st_mtime_ns), LAST_TIME)
        if fields.update_uid:
            changes['uid'] = given.st_uid
        if fields.update_gid:
            changes['gid'] = given.st_gid
        if changes:
            self.alter(node, **changes)
        else:
            self.refresh(node)
        return self.attributes(node)

    @answered
    async def setxattr(self, number, name, value, ctx):
        """CephFS's own attribute by which a directory is wanted at a rank. The ranks then hand it over."""
        if name != PIN:
            raises(errno.ENOTSUP)
        node, rank = self.nodes[number], value.decode('ascii', 'replace')
        if not node.place or node.is_gone or rank not in map(str, range(-1, 256)):
            raises(errno.EINVAL)
        directory, place = node.place
        self.cluster.request(f'setpin {directory:x} {escaped(place)} {rank}')
        self.cluster.settle()

    @answered
    async def statfs(self, ctx):
        said = pyfuse3.StatvfsData()
        said.f_bsize = said.f_frsize = 4096
        said.f_blocks = said.f_bfree = said.f_bavail = 1 << 30
        said.f_files = said.f_ffree = said.f_favail = 1 << 40
        said.f_namemax = 255
        return said

    # ---- bytes

    def resize(self, node, size):
        self.fit(node)
        self.data.fit(node.seen.number, size)

    def fit(self, node):
        if not node.is_fitted:
            self.data.fit(node.seen.number, node.seen.size)
            node.is_fitted = True

    @answered
    async def open(self, number, flags, ctx):
        node = self.refresh(self.nodes[number])
        self.fit(node)
        if flags & os.O_TRUNC:
            self.resize(node, 0)
            self.alter(node, size=0, mtime=time.time_ns())
        return pyfuse3.FileInfo(fh=number)

    @answered
    async def read(self, number, at, size):
        return self.data.read(number, at, max(0, min(size, self.nodes[number].seen.size - at)))

    @answered
    async def write(self, number, at, data):
        node = self.nodes[number]
        self.data.write(number, at, data)
        self.alter(node, size=max(node.seen.size, at + len(data)), mtime=time.time_ns())
        return len(data)

    @answered
    async def release(self, number):
        """Nothing is kept of who has a file open: the kernel forgets it after its last reader."""

    # ---- listings

    @answered
    async def opendir(self, number, ctx):
        handle = max(self.listings, default=0) + 1
        self.listings[handle] = Listing(self.cluster, number)
        return handle

    @answered
    async def readdir(self, handle, start, token):
        listing = self.listings[handle]
        if start == 0:
            listing.rewind()
        position = start
        while (name := listing.name_at(position)) is not None:
            position += 1
            if name in DOTS:
                if not pyfuse3.readdir_reply(token, name, self.attributes(self.nodes[listing.number]), position):
                    break
            # it may have gone since its page was read
            elif inode := self.there(listing.number, name):
                attributes = self.told(inode, (listing.number, name))
                if not pyfuse3.readdir_reply(token, name, attributes, position):
                    await self.forget([(inode.number, 1)])
                    break

    @answered
    async def releasedir(self, handle):
        del self.listings[handle]

    # ---- what outlives the program

    @answered
    async def fsync(self, number, only_data):
        self.data.sync(number)
        if self.cluster.store:
            self.cluster.flush()

    @answered
    async def fsyncdir(self, handle, only_data):
        if self.cluster.store:
            self.cluster.flush()

    def close(self):
        """The last flush, when the kernel has let go of all."""
        self.removed += [number for number, node in self.nodes.items() if node.is_gone]
        self.cluster.close()
