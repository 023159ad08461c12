"""Requests at random, each beside what it has to print."""
import random

from program import Program
from ranks import Ranks
from table import ROOT, Table

NAMES = [f'{letter}{number}' for letter in 'abcd' for number in range(4)]
# of client 9 come the listings by which a directory is looked at
LOOKER = 9
# how many entries a directory may have: as many as a directory can, or so few that some get full
LIMITS = (1048576, 1048576, 9, 3)


class Player(Program):
    """The program, and beside it the plain table, whose each leaf is, what waits at each rank, and every reply so far."""

    def __init__(self, seed, ranks):
        limit = LIMITS[seed % len(LIMITS)]
        super().__init__(ranks, limit)
        self.random = random.Random(seed)
        self.count, self.table, self.bare, self.looks = ranks, Table(limit), 0, 0
        self.ranks = Ranks(self.table, ranks)
        # a request is its pair of client and number, its oldest, and its operation
        self.inboxes, self.replies, self.marks = [[] for _ in range(ranks)], {}, {}
        self.numbers = [rank + 1 << 40 for rank in range(ranks)]
        self.begun = {}

    # ---- requests

    def served(self, rank):
        """What serving a rank prints."""
        if not self.inboxes[rank]:
            return 'refused 14'
        request = pair, oldest, operation = self.inboxes[rank].pop(0)
        named = f'reply {pair[0]} {pair[1]}'
        if pair[1] < max(oldest, self.marks.get(pair[0], 0)):
            self.ranks.end_pair(pair)
            return 'refused 4'
        if pair in self.replies:
            self.ranks.end_pair(pair)
            place, answer = self.replies[pair]
            return f'{named} {place} again {answer}'
        master = self.ranks.master(operation)
        if master not in (None, rank):
            self.inboxes[master].append(request)
            return f'forwarded {master}'
        self.ranks.look(operation)
        if self.ranks.waits(rank, pair, operation):
            self.inboxes[rank].append(request)
            return 'deferred'
        # what is made gets the next number of the rank
        self.table.next_ino = self.numbers[rank]
        self.replies[pair] = place, answer = len(self.replies), self.ranks.applied(operation)
        self.numbers[rank] = self.table.next_ino
        self.marks[pair[0]] = max(oldest, self.marks.get(pair[0], 0))
        self.ranks.end_pair(pair)
        return f'{named} {place} new {answer}'

    def serve(self, rank):
        return self.expect(f'serve {rank}', self.served(rank))

    def ask(self, operation):
        """A bare operation: the front of rank 0's inbox is served."""
        self.bare += 1
        self.inboxes[0].append(((0, self.bare), self.bare, operation))
        self.expect(operation, self.served(0))

    def request(self, rank, pair, oldest, operation):
        self.inboxes[rank].append((pair, oldest, operation))
        self.expect(f'req {rank} {pair[0]} {pair[1]} {oldest} {operation}', 'queued')

    def look(self, rank, directory, most=1024):
        """A directory, listed by requests that come in at a rank. It has to be what the plain table says."""
        after, more = '-', True
        while more:
            words = self.read(rank, f'readdir {directory:x} {after} {most}').split()
            more, after = words[2:3] == ['more'], words[-1].rsplit(':', 1)[0]

    def read(self, rank, operation):
        """The answer of a read that comes in at a rank, served until it is there."""
        self.looks += 1
        pair = LOOKER, self.looks
        self.request(rank, pair, 1, operation)
        while pair not in self.replies:
            self.serve(next(at for at, inbox in enumerate(self.inboxes) if any(request[0] == pair for request in inbox)))
        return self.replies[pair][1]

    # ---- what is picked

    def directory(self):
        return self.random.choice([ROOT] + [*self.ranks.leaves] * 4 + [0xdead])

    def leaf(self):
        """A leaf that stands, but for some."""
        directory, frag = self.random.choice(self.ranks.all_leaves())
        return self.random.choice([(directory, frag)] * 12 + [(directory, frag[:-2] + '*'), (directory, frag[:-1] + '1*'), (0xdead, '*')])

    def rank(self, leaf):
        """The authority of a leaf, but for some."""
        if self.ranks.is_leaf(leaf) and self.random.random() < 0.8:
            return self.ranks.authority(leaf)
        return self.random.randrange(self.count + (self.random.random() < 0.1))

    def place(self):
        """A directory and a name: of an entry that stands, or any."""
        if self.table.rows and self.random.random() < 0.35:
            row = self.random.choice(self.table.rows)
            return row.directory, row.name
        return self.directory(), self.random.choice(NAMES)

    def operation(self):
        pick, (directory, name) = self.random.choice, self.place()
        at = f'{directory:x} {name}'
        if self.random.random() < 0.6 / len(self.ranks.leaves):
            return f'mkdir {at} 755'
        if self.random.random() < 0.2:
            return self.owned(at)
        return pick([
            f'create {at} 644', f'create {at} 600', f'mkdir {at} 755', f'mkdir {at} 700', f'symlink {at} to%20{name}', f'lookup {at}',
            f'readlink {at}', f'setattr {at} mode 640 size {self.random.randrange(100)}', f'unlink {at}', f'rmdir {at}',
            f'rename {at} {self.directory():x} {pick(NAMES)}', f'rename {at} {self.directory():x} {pick(NAMES)}',
            f'readdir {self.directory():x} {pick(["-", name])} {pick([1, 3, 1024])}',
        ])

    def owned(self, at):
        """An operation on owners, or one that pins a directory to a rank, also to one that isn't there."""
        uid, gid = self.random.choice([0, 5, 4294967295]), self.random.choice([0, 6])
        dirs = [f'{row.directory:x} {row.name}' for row in self.table.rows if row.kind == 'dir']
        pinned = self.random.choice([at, *dirs])
        return self.random.choice([
            f'create {at} 644 uid {uid} gid {gid}', f'mkdir {at} 755 uid {uid}', f'symlink {at} to gid {gid}', f'setattr {at} uid {uid}',
            f'setattr {at} mode 600 uid {uid} gid {gid}', *[f'setpin {pinned} {self.random.randrange(self.count)}'] * 6,
            f'setpin {pinned} -1', f'setpin {pinned} {self.random.choice([15, 16, 255])}',
        ])

    def waiting(self):
        return [request for inbox in self.inboxes for request in inbox]

    def first_copy(self, pair):
        """The operation of the first copy of a request that waits."""
        return next((operation for other, _, operation in self.waiting() if other == pair), None)
