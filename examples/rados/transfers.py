"""Push, pull and check: what the commands do."""
import contextlib
import os
import shutil
import tempfile

import journal
import store
from journal import REMOVE
from pool import Refused

MOST_TOLD = 20


def beside(path, name, namespace, end):
    """The file beside a store that knows what a pool has of it."""
    words = [''.join(c if c.isalnum() or c in '-_' else f'%{ord(c):x}' for c in word) for word in (name, namespace) if word]
    return '.'.join([path, *words, end])


def plural(count, word):
    return f'{count} {word}' + ('' if count == 1 else 's')


def looked_at(pool):
    """Refuses a pool that has objects and no head, before anything is written to it."""
    if pool.head() is None:
        for name in pool.objects.names():
            raise Refused(f'{pool.told} has objects that are not of a store, such as {os.fsdecode(name)}; '
                          'take an empty pool, or a namespace of its own')


def known(pool, lease, head, pushing, pushed, say):
    """The copy of the tree that the pool has: the one beside the store, or else made from the pool. None for no tree."""
    if store.push_of(pushing) == head.push:
        os.replace(pushing, pushed)
    if not head.push and not head.broken:
        return None
    if head.broken or store.push_of(pushed) != head.push:
        say(f'{os.path.basename(pushed)} is not of the last push to {pool.told}: the pool is read and compared')
        names, _ = pool.listed()
        store.fetched(pool, lease, pushed, names)
        store.noted(pushed, head.push)
    return pushed


def finished(pool, lease, say):
    """Ends a push that broke off, or gives it up where it can't be ended: this one brings what is lacking."""
    try:
        return journal.finish(pool, lease)
    except journal.LostPart as why:
        say(f'{why}: the pool is read and compared')
        return journal.give_up(pool, lease)


class Spool:
    """The parts of a push, in a file that nobody else sees."""

    def __init__(self, steps):
        self.file, self.sums, self.sizes = tempfile.TemporaryFile(), [], []
        self.keys, self.objects = 0, set()
        for part in journal.parts_of(self.counted(steps)):
            self.file.write(part)
            self.sums.append(journal.sum_of(part))
            self.sizes.append(len(part))

    def counted(self, steps):
        for step in steps:
            self.keys += len(step.keys) + len(step.gone)
            self.objects.add(step.name)
            yield step

    def parts(self):
        self.file.seek(0)
        return (self.file.read(size) for size in self.sizes)


def push(pool, path, name, namespace, seconds, say, copy_of=None):
    """Brings what a pool lacks of a store. `copy_of` names the store that the file is a copy of."""
    pushing, pushed = (beside(copy_of or path, name, namespace, end) for end in ('pushing', 'pushed'))
    looked_at(pool)
    with pool.locked(seconds) as lease:
        head = finished(pool, lease, say)
        old = known(pool, lease, head, pushing, pushed, say)
        number = os.urandom(16).hex()
        store.copied(path, pushing)
        store.settled(pushing, path, number)
        with store.compared(pushing, old) as connection:
            spool = Spool(store.changes(connection))
        if not spool.sums and head.push:
            store.removed(pushing)
            return f'{pool.told} has it all'
        head = journal.pushed(pool, lease, head, number, spool.parts, spool.sums)
        os.replace(pushing, pushed)
        journal.swept(pool, lease, head)
    return f'push {head.count} to {pool.told}: {plural(spool.keys, "key")} of {plural(len(spool.objects), "object")}'


def unpushed(path, name, namespace):
    """How many keys of how many objects a pool lacks of a store, as far as the files beside the store know."""
    pushed = beside(path, name, namespace, 'pushed')
    with tempfile.TemporaryDirectory() as folder:
        copy = os.path.join(folder, 'store')
        store.copied(path, copy)
        store.settled(copy, path, '')
        with store.compared(copy, pushed if store.push_of(pushed) else None) as connection:
            spool = Spool(store.changes(connection))
    return spool.keys, len(spool.objects)


@contextlib.contextmanager
def reading(pool, seconds):
    """Holds the lock of a pool that has a finished push, for reading alone; one that broke off is ended first."""
    head = pool.head()
    if head is None:
        for name in pool.objects.names():
            raise Refused(f'{pool.told} has no store, but objects such as {os.fsdecode(name)}')
        raise Refused(f'{pool.told} is empty')
    if head.stage:
        with pool.locked(seconds) as lease:
            try:
                journal.finish(pool, lease)
            except journal.LostPart as why:
                raise Refused(f'{why}: only another push of the store mends that') from None
    with pool.locked(seconds, shared=True) as lease:
        head = pool.head()
        if head.stage:
            raise Refused(f'another push to {pool.told} broke off just now; try again')
        if head.broken:
            raise Refused(f'{pool.told} is between two pushes, as one lost a part: only another push of the store mends that')
        if not head.push:
            raise Refused(f'no push to {pool.told} has been finished')
        yield lease, head


def read(pool, lease, path, say):
    """Makes a store file of a pool's objects."""
    names, foreign = pool.listed()
    if foreign is not None:
        say(f'{pool.told} also has objects that are not of a store, such as {os.fsdecode(foreign)}')
    store.fetched(pool, lease, path, names)
    lease.prove()


def pull(pool, path, name, namespace, seconds, say):
    """Makes a store file of what the last push brought."""
    for end in ('', '-wal', '-journal'):
        if os.path.lexists(path + end):
            raise Refused(f'{path + end} is there already')
    pulling, pushed = path + '.pulling', beside(path, name, namespace, 'pushed')
    try:
        with reading(pool, seconds) as (lease, head):
            read(pool, lease, pulling, say)
        shutil.copyfile(pulling, pushed)
        store.noted(pushed, head.push)
        with store.database(pulling) as connection:
            objects, pairs = store.counts(connection)
            connection.execute('PRAGMA journal_mode = WAL')
        store.on_disk(pulling)
        os.rename(pulling, path)
    finally:
        store.removed(pulling)
    return f'push {head.count} of {pool.told}: {plural(pairs, "key")} of {plural(objects, "object")}'


def told(step):
    """What a pool lacks or has too much, as lines."""
    name = step.name.decode('ascii', 'backslashreplace')
    if step.kind == REMOVE:
        yield f'object {name} is not in the store'
    if step.kind == journal.CHANGE_HEADER:
        yield f'object {name} lacks or has another header'
    for key in step.keys:
        yield f'object {name} lacks key {key.decode("ascii", "backslashreplace")} or has another value'
    for key in step.gone:
        yield f'object {name} has key {key.decode("ascii", "backslashreplace")}, which is not in the store'


def check(pool, path, seconds, say):
    """Compares a store with a pool, and tells what the pool lacks or has too much; whether they are the same."""
    count = 0
    with tempfile.TemporaryDirectory() as folder, reading(pool, seconds) as (lease, _head):
        new, old = os.path.join(folder, 'store'), os.path.join(folder, 'pool')
        store.copied(path, new)
        store.settled(new, path, '')
        read(pool, lease, old, say)
        with store.compared(new, old) as connection:
            for line in (line for step in store.changes(connection) for line in told(step)):
                count += 1
                if count <= MOST_TOLD:
                    say(line)
    if count > MOST_TOLD:
        say(f'and {count - MOST_TOLD} more')
    return count == 0
