"""The changes of a push: as parts in the pool before any is made, then made object by object.

A push writes its parts, then names them in the head: from that moment it counts. Then it makes each change, writes the
head again, and removes the parts. Each change sets or removes, so making it twice is making it once. Whoever finds a
push that broke off ends it: before that moment by removing its parts, after it by making all its changes.
"""
import collections
import errno
import hashlib
import struct

from librados import Texts, Write
from pool import Head

PART = 1 << 20
# how many writes are under way at once: more take more processor time, since their buffers leave its cache
WRITES = 4
REMOVE, CHANGE, CHANGE_HEADER = range(3)

# What one write operation does to an object: removes it, or removes and sets pairs, and sets the header where it has one.
Step = collections.namedtuple('Step', 'kind name header gone keys values')
FIRST = struct.Struct('<QQQ')


class LostPart(Exception):
    """A part of a push that counts isn't there, or isn't what was written."""


def encoded(step):
    """A step as bytes: its kind, how many keys it removes and sets, the length of each text, and the texts. All numbers
    have 8 bytes, the least one first."""
    texts = [step.name, step.header, *step.gone, *step.keys, *step.values]
    lengths = struct.pack(f'<{len(texts)}Q', *map(len, texts))
    return FIRST.pack(step.kind, len(step.gone), len(step.keys)) + lengths + b''.join(texts)


def parts_of(steps):
    """Steps as parts of about PART bytes."""
    pieces, size = [], 0
    for step in steps:
        pieces.append(encoded(step))
        size += len(pieces[-1])
        if size >= PART:
            yield b''.join(pieces)
            pieces, size = [], 0
    if pieces:
        yield b''.join(pieces)


def sum_of(part):
    return hashlib.blake2b(part, digest_size=16).hexdigest()


def part_name(push, k):
    return f'cephmeta.push.{push}.{k}'.encode()


class Window:
    """Writes that are under way, a limited number at once. Those to one object are made in their order."""

    def __init__(self, objects, lease):
        self.objects, self.lease, self.waiting = objects, lease, collections.deque()

    def __enter__(self):
        return self

    def __exit__(self, *_):
        # whatever fails, nothing is under way behind this
        try:
            self.drain(0)
        finally:
            for completion, _allowed in self.waiting:
                completion.wait_only()

    def begin(self, name, write, allowed=0):
        self.drain(WRITES - 1)
        self.lease.check()
        self.waiting.append((self.objects.begin_write(name, write), allowed))

    def drain(self, left):
        while len(self.waiting) > left:
            completion, allowed = self.waiting.popleft()
            completion.wait(allowed)


def made(part, window):
    """Makes the steps that a part spells."""
    at = 0
    while at < len(part):
        kind, gone, keys = FIRST.unpack_from(part, at)
        count = 2 + gone + 2 * keys
        texts = Texts(part, at + FIRST.size + 8 * count, struct.unpack_from(f'<{count}Q', part, at + FIRST.size))
        make(kind, texts, gone, keys, window)
        at = texts.end()


def make(kind, texts, gone, keys, window):
    """Makes one step, whose texts are its object's name, the header, the keys that go, those that are set, and values."""
    with Write() as write:
        if kind == REMOVE:
            write.gone()
        if kind == CHANGE_HEADER:
            write.header(texts[1])
        if gone:
            write.without(texts, 2, gone)
        if keys:
            write.pairs(texts, 2 + gone, 2 + gone + keys, keys)
        window.begin(texts[0], write, errno.ENOENT if kind == REMOVE else 0)


def written(pool, lease, head, parts):
    """Writes the parts of a new push, which is under way from now on."""
    pool.set_head(head, lease)
    with Window(pool.objects, lease) as window:
        for k, part in enumerate(parts):
            with Write() as write:
                write.data(part)
                window.begin(part_name(head.under_way, k), write)
    head.stage = 'apply'
    pool.set_head(head, lease)


def applied(pool, lease, head, parts):
    """Makes all changes of the push that is under way. No two steps are about the same key, so their order is free."""
    with Window(pool.objects, lease) as window:
        for part in parts:
            made(part, window)
    head.push, head.count, head.stage, head.broken = head.under_way, head.count + 1, 'sweep', False
    pool.set_head(head, lease)


def swept(pool, lease, head):
    """Removes the parts of the push that is under way, which is over then."""
    with Window(pool.objects, lease) as window:
        for k in range(len(head.sums)):
            with Write() as write:
                write.gone()
                window.begin(part_name(head.under_way, k), write, errno.ENOENT)
    pool.set_head(Head(head.push, head.count, broken=head.broken), lease)


def read_parts(pool, head):
    """The parts of the push that is under way, each as it was written."""
    for k, wanted in enumerate(head.sums):
        part = pool.objects.data(part_name(head.under_way, k))
        if part is None or sum_of(part) != wanted:
            raise LostPart(f'part {k + 1} of {len(head.sums)} of a push to {pool.told} is '
                           + ('missing' if part is None else 'damaged'))
        yield part


def finish(pool, lease):
    """Ends the push that the head tells of, if there is one; gives the head that is left."""
    head = pool.head() or Head()
    if not head.stage:
        return head
    if head.client != pool.cluster.address:
        pool.cluster.shut_out(head.client)
    if head.stage == 'apply':
        # each part is looked at before the first change is made
        for _ in read_parts(pool, head):
            lease.check()
        applied(pool, lease, head, read_parts(pool, head))
    swept(pool, lease, head)
    return pool.head()


def give_up(pool, lease):
    """Gives up a push that lost a part: the objects stay between two pushes until the next one is finished."""
    head = pool.head()
    head.push, head.broken, head.stage = '', True, 'sweep'
    pool.set_head(head, lease)
    swept(pool, lease, head)
    return pool.head()


def pushed(pool, lease, head, push, parts, sums):
    """Brings the changes of a new push into the pool; `parts` gives them anew at each call."""
    head = Head(head.push, head.count, 'write', push, sums, pool.cluster.address, head.broken)
    written(pool, lease, head, parts())
    applied(pool, lease, head, parts())
    return head
