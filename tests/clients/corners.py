"""What no random call comes to. What each has to come to is beside it: from Linux's manual pages, or what POSIX says of listings."""
import os
import stat

from calls import Calls, RENAME_EXCHANGE, opened, outcome, renameat2
from mounts import Failed, Mounted, TMPFS, equal, expect, room

WITH_CHAOS = ['--ranks', 3, '--chaos', 0.3]


def what_is_not_supported(top):
    """link(2) and mknod(2): EPERM where the file system doesn't support it. rename(2): EINVAL where it doesn't support a flag."""
    file, other = os.path.join(top, 'file'), os.path.join(top, 'other')
    for path in (file, other):
        os.close(os.open(path, os.O_CREAT | os.O_WRONLY))
    equal(outcome(os.link, file, os.path.join(top, 'linked')), 'EPERM', 'a hard link comes to')
    for kind in (stat.S_IFCHR, stat.S_IFBLK, stat.S_IFIFO, stat.S_IFSOCK):
        equal(outcome(os.mknod, os.path.join(top, 'device'), kind | 0o644, os.makedev(1, 3)), 'EPERM', f'a node of kind {kind:o} comes to')
    equal(outcome(renameat2, file, other, RENAME_EXCHANGE), 'EINVAL', 'an exchange comes to')
    equal(sorted(os.listdir(top)), ['file', 'other'], 'after them there is')
    equal(os.statvfs(top).f_namemax, 255, 'the longest name has')


def listing_while_names_change(top):
    """A name that stays comes once, one that goes or comes at most once, whatever the listing's pages are."""
    staying, going = {f'stays{n}' for n in range(400)}, {f'goes{n}' for n in range(400)}
    for name in staying | going:
        os.close(os.open(os.path.join(top, name), os.O_CREAT | os.O_WRONLY))
    seen, left = [], sorted(going)
    with os.scandir(top) as listing:
        for entry in listing:
            seen.append(entry.name)
            if left:
                os.unlink(os.path.join(top, left.pop()))
                os.close(os.open(os.path.join(top, f'comes{len(left)}'), os.O_CREAT | os.O_WRONLY))
    equal(sorted(staying - set(seen)), [], 'of the names that stay the listing leaves out')
    equal(len(seen), len(set(seen)), 'so many names come, but not each once:')
    equal({name for name in os.listdir(top) if not name.startswith('comes')}, staying, 'then there is')


def a_handle_that_is_read_again(top):
    """rewinddir(3): what is there now."""
    handle = os.open(top, os.O_RDONLY)
    try:
        equal(os.listdir(handle), [], 'an empty directory has')
        os.mkdir(os.path.join(top, 'new'))
        equal(os.listdir(handle), ['new'], 'the same handle then shows')
    finally:
        os.close(handle)


def holes(top):
    """A file may be longer than any memory; where nothing was written there are zeros."""
    with opened(os.path.join(top, 'long'), os.O_CREAT | os.O_RDWR) as file:
        os.ftruncate(file, 1 << 45)
        os.pwrite(file, b'end', (1 << 45) - 3)
        os.pwrite(file, b'middle', 1 << 33)
        equal(os.pread(file, 10, (1 << 45) - 5), b'\0\0end', 'its last bytes are')
        equal(os.pread(file, 8, (1 << 33) - 1), b'\0middle\0', 'its middle is')
        os.ftruncate(file, (1 << 33) + 3)
        os.ftruncate(file, 1 << 34)
        equal(os.pread(file, 8, (1 << 33) - 1), b'\0mid\0\0\0\0', 'what was cut off is')


def numbers_that_are_held(given):
    """A file without a name and a working directory without one keep their numbers to themselves, however often the program is started anew."""
    with room() as folder:
        words = ['--store', os.path.join(folder, 'tree.db'), '--data', os.path.join(folder, 'data'), '--restart-after', 40]
        with Mounted(given.program, folder, *WITH_CHAOS, *words) as mount:
            gone, lost = os.path.join(mount.path, 'gone'), os.path.join(mount.path, 'lost')
            os.mkdir(lost)
            with opened(gone, os.O_CREAT | os.O_RDWR) as file, opened(lost, os.O_RDONLY) as directory:
                os.write(file, b'kept')
                os.unlink(gone)
                os.rmdir(lost)
                # the next program knows neither number, as no name has it
                first = mount.program()
                while mount.program() == first:
                    os.path.lexists(os.path.join(mount.path, 'nothing'))
                numbers = set()
                for number in range(120):
                    path = os.path.join(mount.path, f'new{number}')
                    if number % 2:
                        os.mkdir(path)
                    else:
                        with open(path, 'w') as new:
                            new.write(str(number))
                    numbers.add(os.lstat(path).st_ino)
                equal(len(numbers - {os.fstat(file).st_ino, os.fstat(directory).st_ino}), 120, 'numbers that are only the new files\'')
                equal((os.pread(file, 10, 0), os.fstat(file).st_nlink), (b'kept', 0), 'the file has')
                equal(os.listdir(directory), [], 'the directory has')
            equal([open(os.path.join(mount.path, f'new{number}')).read() for number in range(0, 120, 2)], [*map(str, range(0, 120, 2))], 'the new files have')
            mount.unmount()
        # the bytes of what has no name are gone, those of 60 files are not
        equal(len(os.listdir(os.path.join(folder, 'data'))), 60, 'of files with bytes there are')


def pins(given):
    """`ceph.dir.pin`, as in CephFS: the directory goes to that rank, and its names stay."""
    with room() as folder:
        socket = os.path.join(folder, 'socket')
        with Mounted(given.program, folder, '--ranks', 2, '--admin', socket) as mount:
            pinned = os.path.join(mount.path, 'pinned')
            os.makedirs(os.path.join(pinned, 'below'))
            number = os.lstat(pinned).st_ino
            os.setxattr(pinned, 'ceph.dir.pin', b'1')
            equal(mount.tell(socket, 'get subtrees'), f'subtrees 2 1:*:0 {number:x}:*:1', 'get subtrees')
            equal(mount.tell(socket, f'authority {os.lstat(os.path.join(pinned, "below")).st_ino:x} *'), 'rank 1', 'authority')
            equal(outcome(os.setxattr, pinned, 'ceph.dir.pin', b'x'), 'EINVAL', 'no rank comes to')
            equal(outcome(os.setxattr, pinned, 'ceph.dir.pin', b'16'), 'EINVAL', 'a rank that no cluster has comes to')
            file = os.path.join(mount.path, 'file')
            os.close(os.open(file, os.O_CREAT | os.O_WRONLY))
            equal(outcome(os.setxattr, file, 'ceph.dir.pin', b'1'), 'ENOTDIR', 'a pin of a file comes to')
            equal(outcome(os.setxattr, pinned, 'user.x', b'x'), 'ENOTSUP', 'another attribute comes to')
            # no line that would end the program gets there, and none of a client
            for line in ('get', 'lookup 1 pinned', 'own 256', 'own 0 1', 'serve 0', 'dirfrag ls 0'):
                expect('no administrator' in mount.tell(socket, line), f'{line} is answered')
            equal(os.listdir(pinned), ['below'], 'then there is')
            mount.unmount()


def a_folder_of_bytes(given):
    """As CephFS's data pool: a file for each inode number. A hole in a file is one there."""
    with room() as folder:
        data = os.path.join(folder, 'data')
        with Mounted(given.program, folder, '--data', data) as mount:
            path = os.path.join(mount.path, 'file')
            with open(path, 'w') as file:
                file.write('bytes')
            stored = os.path.join(data, f'{os.lstat(path).st_ino:x}')
            equal(open(stored).read(), 'bytes', 'its bytes are')
            os.unlink(path)
            mount.terminate()
            equal(os.listdir(data), [], 'then there is')


def more_than_a_cache_holds(given):
    """New directories are nowhere but in a cache until they are written. Where one is full of them the cluster writes them, exports or not."""
    with room() as folder, Mounted(given.program, folder, *WITH_CHAOS, '--cache', 512, '--flush-every', 10**9) as mount:
        wanted = {f'd{number}': [f'e{below}' for below in range(25)] for number in range(30)}
        for name, below in wanted.items():
            os.mkdir(os.path.join(mount.path, name))
            for inner in below:
                os.mkdir(os.path.join(mount.path, name, inner))
        equal({name: sorted(os.listdir(os.path.join(mount.path, name))) for name in os.listdir(mount.path)},
              {name: sorted(below) for name, below in wanted.items()}, 'then there is')
        mount.unmount()


def several_clients(given):
    """Each of some processes at once works in a folder of its own as on tmpfs."""
    with room() as folder, room(TMPFS) as beside, Mounted(given.program, folder, *WITH_CHAOS) as mount:
        children = []
        for number in range(4):
            ours, theirs = (os.path.join(top, f'client {number}') for top in (mount.path, beside))
            os.mkdir(ours)
            os.mkdir(theirs)
            child = os.fork()
            if not child:
                os._exit(told(Calls(given.seed + number, ours, theirs)))
            children.append(child)
        for child in children:
            equal(os.waitpid(child, 0)[1], 0, 'a client ends with status')
        mount.unmount()


def told(calls):
    """A process's status: whether its calls come out well."""
    try:
        calls.make(300)
        calls.compare()
        return 0
    except Failed as failure:
        print(f'clients: several_clients: {failure}', flush=True)
        return 1


def paths_in_the_mount(given):
    """A mount that would wait for itself isn't made."""
    with room() as folder:
        for word in ('--store', '--data', '--admin'):
            complaint = ''
            try:
                with Mounted(given.program, folder, word, os.path.join(folder, 'mount/inside')) as mount:
                    mount.unmount()
            except Failed as failure:
                complaint = str(failure)
            expect('lies in MOUNTPOINT' in complaint, f'of {word} in the mount is said: {complaint}')


def times(top):
    """A time that can't be kept becomes the nearest that can: the kernel's own rule. What can be is kept to the nanosecond."""
    for given, kept in ((0, 0), (1, 1), (17 * 10**18 + 1, 17 * 10**18 + 1), (-1, 0), ((1 << 64) + 7, (1 << 64) - 1)):
        os.utime(top, ns=(given, given))
        equal(os.stat(top).st_mtime_ns, kept, f'the time {given} is')


def in_one_mount(given):
    with room() as folder, Mounted(given.program, folder, *WITH_CHAOS) as mount:
        for row in (what_is_not_supported, listing_while_names_change, a_handle_that_is_read_again, holes, times):
            top = os.path.join(mount.path, row.__name__)
            os.mkdir(top)
            row(top)
        mount.unmount()


def all_of_them(given):
    for row in (in_one_mount, numbers_that_are_held, more_than_a_cache_holds, several_clients, pins, a_folder_of_bytes, paths_in_the_mount):
        row(given)
