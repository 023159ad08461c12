"""Administrator's steps between requests, as a seed has them: what a cluster does to its fragments while clients work.

No answer of a request may depend on any of them.
"""
import collections
import random

from cluster import Anew

EXPORT_STEPS = ['freeze', 'prep', 'send', 'import', 'finish']
# so many of the last directories are looked at
DIRECTORIES = 2000
# a directory of more leaves isn't split further
MANY_LEAVES = 40


class Chaos:
    def __init__(self, probability, seed):
        self.probability, self.random = probability, random.Random(seed)
        self.places = {1: None}     # directories, each with the line's words for its name
        self.exports = {}           # the leaves whose exports this has begun, with how many steps were made
        self.jobs = []              # commits that were begun
        self.counts = collections.Counter()
        self.steps = [self.split] * 3 + [self.merge] * 2 + [self.commit] * 2 + [self.begin] + [self.end] * 2 + [self.evict] * 2
        self.steps += [self.tree, self.purge, self.own, self.own, self.pin] + [self.export] * 6

    def forget(self):
        """The program is another one: what was begun has ended with the last."""
        self.exports.clear()
        self.jobs.clear()

    def note(self, directory, place):
        """A directory that a request has told of, and where it stands."""
        self.places.pop(directory, None)
        self.places[directory] = place
        if len(self.places) > DIRECTORIES:
            oldest = next(directory for directory in self.places if directory != 1)
            del self.places[oldest]

    def stir(self, cluster):
        """Some steps, mostly none."""
        while self.random.random() < self.probability:
            try:
                step, said = self.random.choice(self.steps)(cluster)
            except Anew:
                continue
            self.counts[step if said == 'done' else f'{step} {said}'] += 1

    def say(self, cluster, step, line):
        """Says a step's line; what became of it."""
        words = cluster.say(line).split()
        return step, ' '.join(words) if words[0] == 'refused' else 'done'

    # ---- what is picked

    def leaves(self, cluster):
        """A directory, and its leaves: those of the root, where it has gone."""
        directory = self.random.choice([*self.places])
        words = cluster.say(f'dirfrag ls {directory:x}').split()
        if words[0] != 'frags':
            del self.places[directory]
            return self.leaves(cluster)
        cluster.changed.add(directory)
        return directory, words[2:]

    def leaf(self, cluster):
        """A leaf, as a line names it, and its rank."""
        directory, leaves = self.leaves(cluster)
        named = f'{directory:x} {self.random.choice(leaves)}'
        return named, cluster.say(f'authority {named}').split()[1]

    # ---- steps

    def split(self, cluster):
        directory, leaves = self.leaves(cluster)
        if len(leaves) > MANY_LEAVES:
            return self.merge(cluster)
        named = f'{directory:x} {self.random.choice(leaves)}'
        rank = cluster.say(f'authority {named}').split()[1]
        return self.say(cluster, 'split', f'dirfrag split {rank} {named} {self.random.randint(1, 3)}')

    def merge(self, cluster):
        directory, leaves = self.leaves(cluster)
        leaf = self.random.choice(leaves)
        rank = cluster.say(f'authority {directory:x} {leaf}').split()[1]
        above = leaf[:self.random.randint(0, max(0, len(leaf) - 2))] + '*'
        return self.say(cluster, 'merge', f'dirfrag merge {rank} {directory:x} {above}')

    def commit(self, cluster):
        named, rank = self.leaf(cluster)
        return self.say(cluster, 'commit', f'commit {rank} {named}')

    def begin(self, cluster):
        named, rank = self.leaf(cluster)
        words = cluster.say(f'begin {rank} {named}').split()
        if words[0] == 'job':
            self.jobs.append(words[1])
        return 'begin', ' '.join(words) if words[0] == 'refused' else 'done'

    def end(self, cluster):
        """Ends a commit that was begun, or gives it up."""
        if not self.jobs:
            return self.begin(cluster)
        job = self.jobs.pop(self.random.randrange(len(self.jobs)))
        step = self.random.choice(['end', 'end', 'drop'])
        return self.say(cluster, step, f'{step} {job}')

    def evict(self, cluster):
        return self.say(cluster, 'evict', f'evict {self.random.randrange(cluster.ranks)}')

    def tree(self, cluster):
        return self.say(cluster, 'tree', f'tree {self.leaves(cluster)[0]:x}')

    def purge(self, cluster):
        return self.say(cluster, 'purge', 'purge')

    def own(self, cluster):
        word, *step = cluster.say(f'own {self.random.randrange(cluster.ranks)}').split()
        if word == 'none':
            return 'own', 'none'
        return f'own {step[0]}', 'done' if step[3] != 'refused' else ' '.join(step[3:])

    def pin(self, cluster):
        """A directory is wanted at a rank, or at none any more. It is a request, and so no line of an administrator."""
        directory = self.random.choice([*self.places])
        if self.places[directory] is None:
            return self.own(cluster)
        try:
            cluster.bring(f'setpin {self.places[directory]} {self.random.randrange(-1, cluster.ranks)}')
        except OSError as error:
            return 'pin', f'errno {error.errno}'
        return 'pin', 'done'

    def export(self, cluster):
        """The next step of an export, the first one of another, or the end of one that isn't sent."""
        if self.exports and self.random.random() < 0.8:
            return self.go_on(cluster, self.random.choice([*self.exports]))
        named, rank = self.leaf(cluster)
        step, said = self.say(cluster, 'export dir', f'export dir {rank} {named} {self.random.randrange(cluster.ranks)}')
        if said == 'done':
            self.exports[named] = 0
        return step, said

    def go_on(self, cluster, named):
        done = self.exports[named]
        if done < 3 and self.random.random() < 0.1:
            del self.exports[named]
            return self.say(cluster, 'export cancel', f'export cancel {named}')
        step, said = self.say(cluster, f'export {EXPORT_STEPS[done]}', f'export {EXPORT_STEPS[done]} {named}')
        self.exports[named] += said == 'done'
        # a refused one may have been brought on by own turns: it is theirs, then
        if said != 'done' or self.exports[named] == len(EXPORT_STEPS):
            del self.exports[named]
        return step, said
