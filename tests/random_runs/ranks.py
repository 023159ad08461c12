"""Whose each leaf of a plain tree is, and what is frozen, granted, begun or not yet stored there: by the definitions, plainly and slowly.
It shares nothing with the code that it is compared with.

A leaf is a directory and a fragment, such as `01*`. What an administrator's step gives is the number of its refusal, or 0.
"""
import copy

from cached import Cached
from hashes import bits_of
from table import ROOT
from unclean import Unclean

READS = ('lookup', 'readdir', 'readlink')
# which state a step of an export needs, and which it leaves
STEPS = {'freeze': ('started', 'frozen'), 'prep': ('frozen', 'prepared'), 'send': ('prepared', 'sent'), 'import': ('sent', 'imported'),
         'finish': ('imported', None)}


def place_of(leaf):
    """The order of leaves: by directory, then value, then bits."""
    bits = leaf[1][:-1]
    return leaf[0], bits.ljust(24, '0'), len(bits)


class Export:
    def __init__(self, exporter, importer):
        self.exporter, self.importer, self.state = exporter, importer, 'started'


def places_of(operation):
    """The directories and names of an operation's dentries; the last is its destination. A listing has no name."""
    word, directory, name, *rest = operation.split()
    there = [(rest[0], rest[1])] if word == 'rename' else []
    return word, [(int(ino, 16), at) for ino, at in [(directory, name), *there]]


def changes(operation, answer):
    """Whether an operation with this answer changes anything: it doesn't read, and isn't a rename of a name to itself."""
    word, places = places_of(operation)
    return not (word in READS or answer.startswith('errno') or word == 'rename' and places[0] == places[1])


class Ranks:
    def __init__(self, table, count):
        self.table, self.count = table, count
        self.leaves, self.roots = {ROOT: ['*']}, {(ROOT, '*'): 0}
        self.exports, self.grants, self.jobs, self.unclean = {}, set(), {}, Unclean((ROOT, '*'))
        self.cached = Cached(count, (ROOT, '*'))

    # ---- what is there

    def all_leaves(self):
        return [(directory, frag) for directory, frags in self.leaves.items() for frag in frags]

    def is_leaf(self, leaf):
        return leaf[1] in self.leaves.get(leaf[0], [])

    def leaf_of(self, directory, name):
        return directory, next(frag for frag in self.leaves[directory] if bits_of(name).startswith(frag[:-1]))

    def rows_in(self, leaf):
        """The names in a leaf, each with whether it is a directory."""
        return sorted((row.name, row.kind == 'dir') for row in self.table.inside(leaf[0]) if self.leaf_of(leaf[0], row.name) == leaf)

    def names_in(self, leaf):
        return [name for name, _ in self.rows_in(leaf)]

    def climbs_to(self, leaf, root=None):
        """The nearest subtree root of a leaf, itself first and then along dentries upwards, were this one a root too."""
        while leaf != root and leaf not in self.roots:
            row = next(row for row in self.table.rows if row.ino == leaf[0])
            leaf = self.leaf_of(row.directory, row.name)
        return leaf

    def authority(self, leaf):
        return self.roots[self.climbs_to(leaf)]

    def holder(self, leaf):
        """The rank that caches a leaf: its authority, but from an import to its finish the importer."""
        root = self.climbs_to(leaf)
        export = self.exports.get(root)
        return export.importer if export and export.state == 'imported' else self.roots[root]

    def use(self, leaf):
        self.cached.use(self.holder(leaf), leaf)

    def is_frozen(self, leaf):
        export = self.exports.get(self.climbs_to(leaf))
        return export is not None and export.state != 'started'

    def is_pinned(self, leaf):
        return any(pinned == leaf for pinned, _ in self.grants)

    # ---- requests

    def master(self, operation):
        """The rank that has to answer an operation; none where its directory isn't there."""
        word, places = places_of(operation)
        directory, name = places[-1]
        if directory not in self.leaves:
            return None
        return self.authority((directory, self.leaves[directory][0]) if word == 'readdir' else self.leaf_of(directory, name))

    def looked_into(self, operation):
        """The leaves that an operation looks into, in their order: those of its names, as far as it asks for them, and of a listing all. What it
        then changes, and what a directory that goes has, it doesn't look into."""
        word, places = places_of(operation)
        if any(directory not in self.leaves for directory, _ in places):
            return []
        if word == 'readdir':
            return [(places[0][0], frag) for frag in self.leaves[places[0][0]]]
        if word == 'rename':
            row = self.table.find(*places[0])
            if row is None or places[0] == places[1] or row.kind == 'dir' and row.ino in self.path_to(places[1][0]):
                places = places[:1]
        return [self.leaf_of(*place) for place in places]

    def path_to(self, directory):
        """A directory and those above it."""
        path = [directory]
        while path[-1] != ROOT:
            path.append(next(row.directory for row in self.table.rows if row.ino == path[-1]))
        return path

    def look(self, operation):
        for leaf in self.looked_into(operation):
            self.use(leaf)

    def changed(self, operation):
        """The leaves that an operation would change now."""
        if operation is None or operation.split()[0] in READS:
            return []
        trial = copy.copy(self.table)
        trial.rows = [copy.copy(row) for row in trial.rows]
        if not changes(operation, trial.answer(operation)):
            return []
        word, places = places_of(operation)
        gone = self.table.find(*places[-1]) if word in ('rmdir', 'rename') else None
        return [self.leaf_of(*place) for place in places] + [
            (gone.ino, frag) for frag in (self.leaves[gone.ino] if gone and gone.kind == 'dir' else [])]

    def waits(self, rank, pair, operation):
        """Whether an operation would change what is frozen, or another rank's and not granted."""
        return any(self.is_frozen(leaf) or self.authority(leaf) != rank and (leaf, pair) not in self.grants
                   for leaf in self.changed(operation))

    def applied(self, operation):
        """The answer of an operation. A new directory has one leaf; what hangs below one that moves stays its rank's."""
        word, places = places_of(operation)
        row = self.table.find(*places[0]) if word == 'rename' else None
        moved = [(row.ino, frag) for frag in self.leaves[row.ino]] if row and row.kind == 'dir' else []
        whose = {leaf: self.authority(leaf) for leaf in moved}
        answer = self.table.answer(operation)
        there = {ROOT} | {row.ino for row in self.table.rows if row.kind == 'dir'}
        for new in there - self.leaves.keys():
            self.leaves[new] = ['*']
            self.unclean.make((new, '*'), [])
            self.use((new, '*'))
        for leaf in self.all_leaves():
            if leaf[0] not in there:
                self.forget(leaf)
        self.leaves = {directory: frags for directory, frags in self.leaves.items() if directory in there}
        self.roots.update({leaf: rank for leaf, rank in whose.items() if self.authority(leaf) != rank})
        for place in places if changes(operation, answer) else []:
            self.unclean.change(self.leaf_of(*place), place[1])
        return answer

    def end_pair(self, pair):
        self.grants = {(leaf, granted) for leaf, granted in self.grants if granted != pair}

    # ---- an administrator's steps

    def forget(self, leaf):
        """A leaf goes."""
        self.roots.pop(leaf, None)
        self.jobs.pop(leaf, None)
        self.unclean.forget(leaf)
        self.cached.forget(leaf)
        self.grants = {(pinned, pair) for pinned, pair in self.grants if pinned != leaf}

    def barred(self, rank, leaves):
        return (5 if any(self.authority(leaf) != rank for leaf in leaves) else 6 if any(map(self.is_frozen, leaves)) else
                7 if any(map(self.is_pinned, leaves)) else 0)

    def replace(self, old, new):
        """Leaves of a directory become others; where one was a root, these are."""
        directory = old[0][0]
        whose, holder = [self.roots[leaf] for leaf in old if leaf in self.roots], self.holder(old[0])
        for leaf in old:
            self.forget(leaf)
        self.leaves[directory] = sorted({*self.leaves[directory], *new} - {frag for _, frag in old})
        for leaf in [(directory, frag) for frag in new]:
            self.unclean.make(leaf, self.names_in(leaf))
            self.cached.use(holder, leaf)
            self.roots.update({leaf: rank for rank in whose})
        return 0

    def split(self, rank, leaf, bits):
        if rank >= self.count:
            return 5
        if not self.is_leaf(leaf):
            return 8
        if not 1 <= bits <= 8 or len(leaf[1]) - 1 + bits > 24:
            return 9
        return self.barred(rank, [leaf]) or self.replace([leaf], [f'{leaf[1][:-1]}{child:0{bits}b}*' for child in range(1 << bits)])

    def merge(self, rank, leaf):
        if rank >= self.count:
            return 5
        directory, frag = leaf
        inside = [(directory, other) for other in self.leaves.get(directory, []) if other != frag and other.startswith(frag[:-1])]
        if not inside:
            return 8
        return self.barred(rank, inside) or self.replace(inside, [frag])

    def begin(self, rank, leaf):
        if rank >= self.count:
            return 5
        if not self.is_leaf(leaf):
            return 8
        barred = self.barred(rank, [leaf])
        return barred if barred in (5, 6) else 12 if leaf in self.jobs else 0

    def evict(self, rank):
        if rank >= self.count:
            return 5
        return 0 if self.cached.evict(rank, self.unclean.is_clean) else 16

    def grant(self, rank, pair, operation):
        """A rank grants what a request would change of its leaves; the operation is none where no such request waits."""
        if rank >= self.count:
            return 5
        if operation is None:
            return 14
        self.look(operation)
        mine = [leaf for leaf in self.changed(operation) if self.authority(leaf) == rank]
        if not mine:
            return 5
        if any(map(self.is_frozen, mine)):
            return 6
        self.grants |= {(leaf, pair) for leaf in mine}
        return 0

    # ---- exports

    def start(self, exporter, leaf, importer):
        if max(exporter, importer) >= self.count:
            return 5
        if leaf in self.exports:
            return 13
        if not self.is_leaf(leaf):
            return 8
        if exporter == importer or self.authority(leaf) != exporter:
            return 5
        if self.is_frozen(leaf):
            return 6
        self.exports[leaf] = Export(exporter, importer)
        return 0

    def sent(self, root):
        """How many bytes a send gives."""
        return 20 + sum(self.unclean.sent(leaf, self.table) for leaf in self.all_leaves() if self.climbs_to(leaf) == root)

    def step(self, word, root):
        """A step of an export but its start."""
        export = self.exports.get(root)
        needed = ('started', 'frozen', 'prepared') if word == 'cancel' else STEPS[word][:1]
        if export is None or export.state not in needed:
            return 13
        if word == 'freeze' and (refused := self.freeze(root, export.exporter)):
            return refused
        if word == 'import':
            self.hand_over(root, export)
        if word == 'finish':
            self.roots[root] = export.importer
        if word in ('finish', 'cancel'):
            del self.exports[root]
        else:
            export.state = STEPS[word][1]
        return 0

    def hand_over(self, root, export):
        """What the exporter caches of a region and isn't clean is the importer's; what is clean is cached no more."""
        region = [leaf for leaf in self.all_leaves() if self.climbs_to(leaf) == root and self.cached.has(export.exporter, leaf)]
        for leaf in region:
            self.cached.forget(leaf)
        self.cached.move(sorted((leaf for leaf in region if not self.unclean.is_clean(leaf)), key=place_of), export.importer)

    def freeze(self, root, exporter):
        if not self.is_leaf(root):
            return 8
        if barred := self.barred(exporter, [root]):
            return barred
        if any(self.climbs_to(leaf, root) == root for leaf, _ in self.grants):
            return 7
        self.roots[root] = exporter
        self.jobs = {leaf: job for leaf, job in self.jobs.items() if self.climbs_to(leaf) != root}
        return 0

    # ---- what ranks do of their own

    def own_step(self, rank):
        """A rank's own step: the first that there is, as what it does and where, or none. Leaves that are merged are cached."""
        for root, export in sorted(self.exports.items(), key=lambda it: place_of(it[0])):
            if export.exporter == rank and (step := self.next_own(rank, root, export)):
                return step, root
        for whole, parts in self.small(rank):
            if all(self.cached.has(rank, leaf) for leaf in parts):
                return 'merge', whole
        away = [leaf for leaf in self.all_leaves() if self.is_away(rank, leaf)]
        return ('start', min(away, key=place_of)) if away else None

    def next_own(self, rank, root, export):
        """How a rank goes on with an export: one that is started waits while it can't be frozen."""
        if export.state != 'started':
            return next(word for word, (needed, _) in STEPS.items() if needed == export.state)
        if not self.is_leaf(root) or self.authority(root) != rank:
            return 'cancel'
        is_held = self.is_frozen(root) or any(self.climbs_to(leaf, root) == root for leaf, _ in self.grants)
        return None if is_held else 'freeze'

    def small(self, rank):
        """The fragments of which eight leaves have fewer than 50 entries together, are the rank's, and neither frozen nor granted."""
        wholes = {(directory, frag[:-4] + '*') for directory, frag in self.all_leaves() if len(frag) > 3}
        for directory, frag in sorted(wholes, key=place_of):
            parts = [(directory, f'{frag[:-1]}{child:03b}*') for child in range(8)]
            if all(map(self.is_leaf, parts)) and not self.barred(rank, parts) and sum(len(self.rows_in(leaf)) for leaf in parts) < 50:
                yield (directory, frag), parts

    def pin_of(self, directory):
        """The rank that a directory is pinned to, itself or by the nearest above it."""
        while directory != ROOT:
            row = next(row for row in self.table.rows if row.ino == directory)
            if row.pin is not None:
                return row.pin
            directory = row.directory
        return None

    def is_away(self, rank, leaf):
        """Whether a rank would start an export of a leaf: a subtree root of its own, or one of a directory that has a pin, pinned to another rank."""
        to = self.pin_of(leaf[0])
        has_pin = any(row.ino == leaf[0] and row.pin is not None for row in self.table.rows)
        return (to is not None and to != rank and to < self.count and (leaf in self.roots or has_pin) and self.authority(leaf) == rank
                and not self.is_frozen(leaf) and leaf not in self.exports)

    def make(self, rank, step, leaf):
        """A rank makes a step of its own."""
        if step == 'start':
            return self.start(rank, leaf, self.pin_of(leaf[0]))
        return self.merge(rank, leaf) if step == 'merge' else self.step(step, leaf)
