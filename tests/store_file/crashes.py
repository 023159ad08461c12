"""Crashes of the machine, made of what a run wrote and synced: each write since the last sync of its file may be there, lost or torn,
in any order; or garbage, as far as it was to be written. No disk is cut off: the states of a disk are worked out, and the program opens
them.
"""
import os
import random

from formats import Unsound, wants
from served import Ended, Served

SECTOR = 512
OLD_OR_NEW = ['made', 'made', 'lost', 'torn']
ANY = OLD_OR_NEW + ['garbage']


def noted(path):
    """The changes that a run told: (what, file, place, bytes)."""
    found = []
    with open(path, 'rb') as file:
        while line := file.readline():
            what, which, at, length = line.split()
            data = file.read(int(length)) if what in (b'write', b'answer') else b''
            found.append((what.decode(), int(which), int(at), data))
    return found


class Disk:
    """A file and its log on a disk: what is durable of each, and what was changed since."""

    def __init__(self, path):
        self.durable = [content(path), content(path + '-wal')]
        self.since = [[], []]

    def take(self, what, which, at, data, syncs):
        if which > 1 or what == 'answer':
            return
        if what == 'sync':
            if syncs:
                self.durable[which] = made(self.durable[which], self.since[which])
                self.since[which] = []
        else:
            self.since[which].append((what, at, data))

    def crashed(self, chance, fates):
        """A state that a crash may leave: the bytes of the file and of the log, None where there is none."""
        return [left(was, since, chance, fates) for was, since in zip(self.durable, self.since)]


def content(path):
    return open(path, 'rb').read() if os.path.exists(path) else b''


def made(was, changes):
    """The bytes behind some changes."""
    data = bytearray(was or b'')
    gone = was is None
    for what, at, new in changes:
        gone = what == 'unlink'
        if what == 'truncate':
            data[at:] = bytes(max(0, at - len(data)))
        elif what == 'write':
            data.extend(bytes(max(0, at + len(new) - len(data))))
            data[at:at + len(new)] = new
    return None if gone else bytes(data)


def left(was, since, chance, fates):
    """What is left of a file: each of its changes has one of these fates."""
    changes = []
    for what, at, new in since:
        fate = chance.choice(fates)
        if fate == 'lost':
            continue
        if what == 'write' and fate == 'garbage':
            begin, end = sorted(chance.randrange(len(new) + 1) for _ in range(2))
            begin *= chance.random() < 0.5
            new = new[:begin] + chance.randbytes(end - begin) + new[end:]
        if what == 'write' and fate == 'torn':
            # sectors of it are there, each for itself
            changes += [('write', at + k, new[k:k + SECTOR]) for k in range(0, len(new), SECTOR) if chance.random() < 0.5]
            continue
        changes.append((what, at, new))
    if chance.random() < 0.3:
        chance.shuffle(changes)
    return made(was, changes)


def told_by(it):
    """What a run tells that opens the file, flushes and ends, each flush answered before the next lines come."""
    path = os.path.join(it.folder, 'changes')
    if os.path.exists(path):
        os.remove(path)
    it.renew()
    disk = Disk(it.path)
    run = Served(it.program, it.path, '--ask', env={**it.environment('', 0, 0), 'CHANGES_TOLD': path})
    try:
        for lines in it.flushes[:-1]:
            wants(run.ask([*lines, 'flush'])[-1] == 'flushed', 'a flush is not kept')
        run.ask(it.flushes[-1])
    except Ended:
        raise Unsound('the run ends') from None
    wants(run.close() == (0, '', ''), 'the run that is crashed doesn\'t end well')
    return disk, noted(path)


def crashed(it, seed, each, fates, syncs=True):
    """Crashes at each change, `each` times. Gives how many states there were, and how many the program didn't open with the tree of the
    last flush that was answered, or of the one under way."""
    disk, changes = told_by(it)
    chance, answered, states, failed = random.Random(seed), 0, 0, []
    for k, change in enumerate(changes):
        disk.take(*change, syncs)
        answered += change[0] == 'answer' and change[3].endswith(b'flushed\n')
        for _ in range(each):
            it.renew()
            for end, data in zip(('', '-wal'), disk.crashed(chance, fates)):
                put(it.path + end, data)
            states += 1
            try:
                it.is_left(it.trees[answered:answered + 2], opened=answered > 0)
            except Unsound as why:
                failed.append(f'crash behind change {k}, {change[0]} of {["the file", "the log", "the folder"][change[1]]}: {why}')
    return states, failed


def put(path, data):
    if data is not None:
        with open(path, 'wb') as file:
            file.write(data)
    elif os.path.exists(path):
        os.remove(path)


def all_crashed(it, each, fates):
    """Each state comes back; without syncs not each one does, or the states would be too tame."""
    states, failed = crashed(it, 1, each, fates)
    wants(not failed, f'{len(failed)} of {states} crashes: {" | ".join(failed[:5])}')
    tame = crashed(it, 1, 1, fates, syncs=False)
    wants(len(tame[1]) > 5, f'without syncs {len(tame[1])} of {tame[0]} crashes are seen')
    return f'{states} crashes; without syncs {len(tame[1])} of {tame[0]} are seen'
