"""An administrator's steps at random, each beside what it has to print, and what has to hold after them."""
from player import NAMES, Player
from program import Broken
from ranks import STEPS


def printed(refused):
    return f'refused {refused}' if refused else 'nothing'


def named(leaf):
    return f'{leaf[0]:x} {leaf[1]}'


def object_of(leaf):
    bits = leaf[1][:-1]
    return f'{leaf[0]:x}.{len(bits) << 24 | int(bits.ljust(24, "0"), 2):08x}'


def next_step(export):
    return next(word for word, (needed, _) in STEPS.items() if needed == export.state)


class Administrator(Player):
    def __init__(self, seed, ranks):
        super().__init__(seed, ranks)
        # of each job the names that its leaf had when it was begun, with whether they are directories, and those that had changed
        self.begun = {}

    # ---- what is picked

    def leaf(self):
        """A leaf that stands, but for some."""
        directory, frag = self.random.choice(self.ranks.all_leaves())
        return self.random.choice([(directory, frag)] * 12 + [(directory, frag[:-2] + '*'), (directory, frag[:-1] + '1*'), (0xdead, '*')])

    def rank_of(self, leaf):
        """The authority of a leaf, but for some, also one that isn't there."""
        if self.ranks.is_leaf(leaf) and self.random.random() < 0.8:
            return self.ranks.authority(leaf)
        return self.random.randrange(self.count + (self.random.random() < 0.1))

    def job(self):
        """The number of a job that stands, or any; and its leaf, if it stands."""
        standing = [*self.ranks.jobs.values()]
        number = self.random.choice(standing if standing and self.random.random() < 0.8 else [*self.begun, 99])
        return number, next((leaf for leaf, job in self.ranks.jobs.items() if job == number), None)

    # ---- steps

    def split(self):
        leaf, bits = self.leaf(), self.random.choice([1, 1, 2, 3, 3, 9])
        rank = self.rank_of(leaf)
        self.expect(f'dirfrag split {rank} {named(leaf)} {bits}', printed(self.ranks.split(rank, leaf, bits)))

    def merge(self):
        """Of the leaves inside a fragment above a leaf, mostly one of a directory that was split."""
        parts = [leaf for leaf in self.ranks.all_leaves() if leaf[1] != '*']
        directory, frag = leaf = self.random.choice(parts) if parts and self.random.random() < 0.7 else self.leaf()
        rank, whole = self.rank_of(leaf), (directory, frag[:-1][:self.random.randrange(3)] + '*')
        self.expect(f'dirfrag merge {rank} {named(whole)}', printed(self.ranks.merge(rank, whole)))

    def grant(self):
        """To a request that waits, or to none."""
        waiting = self.waiting()
        pair = self.random.choice(waiting)[0] if waiting and self.random.random() < 0.9 else (1, 99)
        changed = self.ranks.changed(self.first_copy(pair))
        rank = self.rank_of(self.random.choice(changed)) if changed else self.random.randrange(self.count)
        self.grant_by(rank, pair)

    def grant_by(self, rank, pair):
        self.expect(f'grant {rank} {pair[0]} {pair[1]}', printed(self.ranks.grant(rank, pair, self.first_copy(pair))))

    def tree(self):
        directory = self.directory()
        self.expect(f'tree {directory:x}', printed(0 if directory in self.ranks.leaves else 8))

    def purge(self):
        self.expect('purge', 'nothing')

    def evict(self):
        rank = self.rank_of(self.leaf())
        self.expect(f'evict {rank}', printed(self.ranks.evict(rank)))

    def drain(self):
        """Some of what a rank caches and is clean goes, into one of these leaves an operation looks, and then all of it goes: so it is told which leaf
        was the least recently used."""
        rank = self.random.randrange(self.count)
        clean = [leaf for leaf in self.ranks.cached.orders[rank] if self.ranks.unclean.is_clean(leaf)]
        for _ in range(self.random.randrange(len(clean) + 1)):
            self.expect(f'evict {rank}', printed(self.ranks.evict(rank)))
        places = [(leaf[0], name) for leaf in clean for name in NAMES if self.ranks.leaf_of(leaf[0], name) == leaf]
        if places:
            directory, name = self.random.choice(places)
            self.read(rank, f'lookup {directory:x} {name}')
        while self.expect(f'evict {rank}', printed(self.ranks.evict(rank))) == 'nothing':
            pass

    def begun_at(self, rank, leaf):
        """The number of the job that a commit begins, 0 where none is begun; and the number of the refusal."""
        refused = self.ranks.begin(rank, leaf)
        if refused or self.ranks.unclean.is_clean(leaf):
            return 0, refused
        self.ranks.use(leaf)
        number = len(self.begun) + 1
        self.ranks.jobs[leaf] = number
        self.begun[number] = self.ranks.rows_in(leaf), self.ranks.unclean.snapshot(leaf)
        return number, 0

    def begin(self):
        leaf = self.leaf()
        rank = self.rank_of(leaf)
        number, refused = self.begun_at(rank, leaf)
        self.expect(f'begin {rank} {named(leaf)}', f'job {number}' if number else printed(refused))

    def commit(self):
        leaf = self.leaf()
        rank = self.rank_of(leaf)
        number, refused = self.begun_at(rank, leaf)
        self.expect(f'commit {rank} {named(leaf)}', printed(refused))
        if number:
            self.is_written(number, leaf)

    def end(self):
        number, leaf = self.job()
        self.expect(f'end {number}', printed(0 if leaf else 11))
        if leaf:
            self.is_written(number, leaf)

    def is_written(self, number, leaf):
        """The object has what the leaf had when its job was begun."""
        names, snapshot = self.begun[number]
        del self.ranks.jobs[leaf]
        self.ranks.use(leaf)
        self.ranks.unclean.written(leaf, snapshot)
        self.is_object(leaf, names)

    def drop(self):
        number, leaf = self.job()
        self.ranks.jobs.pop(leaf, None)
        self.expect(f'drop {number}', printed(0 if leaf else 11))

    def flush(self):
        if self.ranks.exports:
            self.expect('flush', 'refused 18')
        else:
            self.ranks.jobs = {}
            self.expect('flush', 'flushed')
            self.ranks.cached.write(self.ranks.unclean.is_clean)
            for leaf in self.ranks.all_leaves():
                self.store(leaf)
            self.is_stored()

    def store(self, leaf):
        """All of a leaf is in the store, where something wasn't."""
        if not self.ranks.unclean.is_clean(leaf):
            self.ranks.unclean.written(leaf, self.ranks.unclean.snapshot(leaf))

    def own(self):
        """A rank's own next step, made."""
        busy = [rank for rank in range(self.count) if self.ranks.own_step(rank)]
        rank = self.random.choice(busy) if busy and self.random.random() < 0.8 else self.random.randrange(self.count + 1)
        if rank == self.count:
            self.expect(f'own {rank}', 'refused 5')
            return
        step = self.ranks.own_step(rank)
        sent = f'sent {self.ranks.sent(step[1])}' if step and step[0] == 'send' else 'nothing'
        self.expect(f'own {rank}', f'own {step[0]} {named(step[1])} {sent}' if step else 'none')
        if step and self.ranks.make(rank, *step):
            raise Broken(f'own {rank}\n  prints {self.said}\n  which is to be refused')

    def start(self):
        leaf = self.leaf()
        exporter, importer = self.rank_of(leaf), self.random.randrange(self.count)
        self.expect(f'export dir {exporter} {named(leaf)} {importer}', printed(self.ranks.start(exporter, leaf, importer)))

    def export(self):
        """The next step of an export that stands, or any of any; where none stands, mostly a start."""
        if not self.ranks.exports and self.random.random() < 0.8:
            return self.start()
        root = self.random.choice([*self.ranks.exports]) if self.ranks.exports and self.random.random() < 0.95 else self.leaf()
        export, word = self.ranks.exports.get(root), self.random.choice([*STEPS, 'cancel'])
        if export and self.random.random() < 0.8:
            word = next_step(export)
        self.export_step(word, root)

    def export_step(self, word, root):
        refused = self.ranks.step(word, root)
        is_sent = word == 'send' and not refused
        self.expect(f'export {word} {named(root)}', f'sent {self.ranks.sent(root)}' if is_sent else printed(refused))

    # ---- what has to hold

    def is_as_told(self):
        """Whose the leaves are, and how many requests were answered."""
        roots = sorted(self.ranks.roots.items())
        self.expect('get subtrees', ' '.join(['subtrees', str(len(roots)), *(f'{ino:x}:{frag}:{rank}' for (ino, frag), rank in roots)]))
        self.expect('history', f'history {len(self.replies)}')

    def is_object(self, leaf, names):
        """The leaf's object has the version of so many writes and these names, and counts those that are directories, and the others."""
        dirs, version = sum(is_dir for _, is_dir in names), self.ranks.unclean.versions[leaf]
        keys = [text + '_head' for text, _ in names]
        self.expect(f'object {object_of(leaf)}', ' '.join(['frag', str(version), str(len(names) - dirs), str(dirs), *keys]))

    def is_stored(self):
        """Each leaf's object is there with its names, and no object but these and those of directories with more leaves than one."""
        for leaf in self.ranks.all_leaves():
            self.is_object(leaf, self.ranks.rows_in(leaf))
        wanted = {object_of(leaf) for leaf in self.ranks.all_leaves()}
        wanted |= {f'{directory:x}.fragtree' for directory, frags in self.ranks.leaves.items() if len(frags) > 1}
        said = self.say('objects').split()
        if set(said[2:]) != wanted or int(said[1]) != len(wanted):
            raise Broken(f'objects\n  prints {" ".join(said)}\n  and what stands is {sorted(wanted)}')

    # ---- the end

    def end_exports(self):
        for root, export in [*self.ranks.exports.items()]:
            while root in self.ranks.exports:
                word = next_step(export)
                is_given_up = export.state in ('started', 'frozen', 'prepared') and (
                    self.random.random() < 0.3 or not self.ranks.is_leaf(root) or word == 'freeze')
                self.export_step('cancel' if is_given_up else word, root)

    def serve_all(self):
        """Every request that waits is answered, once whoever has to has granted; then none waits anywhere."""
        while any(self.inboxes):
            for rank, inbox in enumerate(self.inboxes):
                if inbox:
                    pair, _, operation = inbox[0]
                    for other in sorted({self.ranks.authority(leaf) for leaf in self.ranks.changed(self.first_copy(pair))}):
                        self.grant_by(other, pair)
                    self.serve(rank)
        for rank in range(self.count):
            self.serve(rank)

    def store_all(self):
        """Leaf after leaf is committed, and what nothing owns any more removed."""
        self.ranks.jobs = {}
        for number in self.begun:
            self.say(f'drop {number}')
        for leaf in self.ranks.all_leaves():
            self.expect(f'commit {self.ranks.authority(leaf)} {named(leaf)}', 'nothing')
            self.store(leaf)
        for directory in self.ranks.leaves:
            self.expect(f'tree {directory:x}', 'nothing')
        there = None
        while there != (there := self.say('objects')):
            for _ in range(64):
                self.purge()
        self.is_stored()

    def finish(self):
        self.end_exports()
        self.serve_all()
        for directory in [*self.ranks.leaves]:
            frags = self.ranks.leaves[directory]
            self.expect(f'dirfrag ls {directory:x}', ' '.join(['frags', str(len(frags)), *frags]))
            for rank in range(self.count):
                self.look(rank, directory, 3)
        self.store_all()
        self.is_as_told()
        self.close()
