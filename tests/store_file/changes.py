"""Random lines for a program that runs: operations, which the plain table answers too, and an administrator's steps, which leave
the tree: splits, merges, commits, exports that end or are cancelled, own turns, evictions."""
from formats import ROOT, wants
from served import Told

NAMES = [f'n{k}' for k in range(40)] + ['%25%20', '%ff%fe', '%c3%a9', '%2d', 'x' * 255, 'a_head']
# how often of each: operations that make, alter and take away
MAKES = ['create'] * 4 + ['mkdir'] * 2 + ['symlink']
ALTERS = ['setattr'] * 3 + ['setpin'] + ['rename'] * 3
REMOVES = ['unlink'] * 3 + ['rmdir'] * 2
STEPS = (['split', 'merge', 'commit', 'begin', 'end'] * 2 + ['tree', 'purge', 'evict', 'own'] + ['export'] * 2)
EXPORT = ['dir', 'freeze', 'prep', 'send', 'import', 'finish']
MANY = 120


class Changes:
    """The changes of one run over `ranks` ranks. `told` is the tree after them, and is carried on from run to run."""

    def __init__(self, run, told, chance, ranks):
        self.run, self.told, self.chance, self.ranks = run, told, chance, ranks
        # each export that was begun, with the step that comes next
        self.exports, self.jobs = {}, []

    def make(self, count):
        for _ in range(count):
            if self.chance.random() < 0.75:
                self.operate()
            else:
                getattr(self, self.chance.choice(STEPS))()

    def operate(self):
        line = self.operation()
        rank = self.chance.randrange(self.ranks)
        self.told.tid += 1
        # as a client's request at any rank, or alone
        asked = line if rank == 0 else f'req {rank} 1 {self.told.tid} {self.told.tid} {line}'
        self.told.hear(line, self.run.say(asked))

    def directory(self):
        return self.chance.choice([ROOT] + [row.ino for row in self.told.table.rows if row.kind == 'dir'])

    def operation(self):
        rows, chance = self.told.table.rows, self.chance
        kind = chance.choice(MAKES + ALTERS + REMOVES * (3 if len(rows) > MANY else 1))
        row = chance.choice(rows) if rows and chance.random() < 0.9 else None
        at = f'{row.directory:x} {row.name}' if row else f'{self.directory():x} {chance.choice(NAMES)}'
        if kind in MAKES:
            new = f'{self.directory():x} {chance.choice(NAMES)}'
            last = 't%20' * chance.randrange(1, 60) if kind == 'symlink' else chance.choice(['644', '7', '1755'])
            return f'{kind} {new} {last}' + (f' uid {chance.randrange(1 << 32)}' if chance.random() < 0.3 else '')
        if kind == 'setattr':
            parts = [f'mode {chance.choice(["600", "4755"])}', f'size {chance.randrange(1 << 40)}', f'mtime {chance.randrange(1 << 64)}',
                     f'gid {chance.randrange(1 << 32)}']
            return f'setattr {at} {" ".join(part for part in parts if chance.random() < 0.5) or parts[2]}'
        if kind == 'setpin':
            return f'setpin {at} {chance.randrange(-1, 5)}'
        if kind == 'rename':
            return f'rename {at} {self.directory():x} {chance.choice(NAMES)}'
        return f'{kind} {at}'

    def leaf(self):
        """A leaf, and the rank whose it is."""
        ino = self.directory()
        leaf = self.chance.choice(self.run.say(f'dirfrag ls {ino:x}').split()[2:])
        return self.run.say(f'authority {ino:x} {leaf}').split()[1], f'{ino:x} {leaf}'

    def step(self, line):
        """A step, which is done or refused."""
        said = self.run.say(line)
        wants(said.split()[0] in ('nothing', 'refused', 'sent', 'job', 'own', 'none'), f'{line}: {said}')
        return said

    def split(self):
        rank, leaf = self.leaf()
        self.step(f'dirfrag split {rank} {leaf} {self.chance.randrange(1, 4)}')

    def merge(self):
        rank, leaf = self.leaf()
        ino, bits = leaf.split()
        self.step(f'dirfrag merge {rank} {ino} {bits[:self.chance.randrange(len(bits))]}*')

    def commit(self):
        self.step('commit %s %s' % self.leaf())

    def begin(self):
        said = self.step('begin %s %s' % self.leaf())
        self.jobs += said.split()[1:] if said.startswith('job') else []

    def end(self):
        if self.jobs:
            self.step(f'{self.chance.choice(["end", "end", "drop"])} {self.jobs.pop()}')

    def tree(self):
        self.step(f'tree {self.directory():x}')

    def purge(self):
        self.step('purge')

    def evict(self):
        self.step(f'evict {self.chance.randrange(self.ranks)}')

    def own(self):
        self.step(f'own {self.chance.randrange(self.ranks)}')

    def export(self):
        """Begins an export, or makes the next step of one, or gives it up."""
        if self.ranks == 1:
            return
        if self.exports and self.chance.random() < 0.8:
            self.go_on(self.chance.choice(list(self.exports)), self.chance.random() < 0.1)
            return
        rank, leaf = self.leaf()
        to = self.chance.choice([it for it in range(self.ranks) if str(it) != rank])
        ino, bits = leaf.split()
        if self.step(f'export dir {rank} {ino} {bits} {to}') == 'nothing':
            self.exports[leaf] = 1

    def go_on(self, leaf, cancels):
        k = self.exports[leaf]
        if cancels and k < 4:
            self.step(f'export cancel {leaf}')
            del self.exports[leaf]
            return
        said = self.step(f'export {EXPORT[k]} {leaf}')
        self.exports[leaf] = k + 1
        if EXPORT[k] == 'finish' or said.startswith('refused'):
            # an own turn was there before, or it is never frozen any more
            del self.exports[leaf]

    def end_exports(self):
        """Ends all exports, those that own turns began too."""
        for leaf in list(self.exports):
            while leaf in self.exports:
                self.go_on(leaf, self.chance.random() < 0.3)
        for _ in range(200):
            if all(self.step(f'own {rank}') == 'none' for rank in range(self.ranks)):
                return


def new_told():
    told = Told()
    told.tid = 0
    return told
