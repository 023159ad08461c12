"""Runs that are killed at random moments (SIGKILL): in changes, in a flush, while they open the file, and at their end."""
import copy
import os
import random
import signal
import threading
import time

from changes import Changes, new_told
from formats import Unsound, wants
from served import Ended, Served, shown
from stores import copied, log_of, removed, rows_of, tree_of

MOMENTS = ['in changes', 'in a flush', 'in a flush', 'in a flush', 'opening', 'at its end']


def found(program, path, allowed, ranks=1):
    """Which of the trees that a file may have it has: by a reader that isn't the program's, name by name and attribute by attribute.
    Then the program shows the same tree over a copy, and its end leaves a copy that has it without a log."""
    tree = tree_of(rows_of(path))
    wants(tree in allowed, f'the tree is none of those that may be there: {differences(tree, allowed)}')
    return shows(program, path, tree, ranks) and allowed.index(tree)


def shows(program, path, tree, ranks=1):
    mine = copied(path, path + '.mine')
    of_program = shown(program, mine, '--ranks', str(ranks))
    wants(of_program == tree, f'the program shows another tree: {differences(of_program, [tree])}')
    wants(log_of(mine) is None, 'a run that ended left a log')
    wants(tree_of(rows_of(mine)) == tree, 'a run that changed nothing left another tree')
    removed(mine)
    return True


def differences(tree, allowed):
    return ' | '.join(str([(at, tree.get(at), other.get(at)) for at in sorted({*tree, *other})
                           if tree.get(at) != other.get(at)][:3]) for other in allowed)


class Killed:
    """Runs over one file, one after the other. `saved` is the tree of the last flush that was answered, `trying` that of the one under
    way."""

    def __init__(self, program, folder, seed):
        self.program, self.folder, self.seed = program, folder, seed
        self.chance = random.Random(seed)
        self.usual = {'opening': 0.01, 'in a flush': 0.005, 'at its end': 0.005, 'in changes': 0.05}
        # the client's numbers go on from run to run, since the file keeps what it was told
        self.files, self.counts, self.ended, self.tid = 0, {}, 0, 0
        self.renew()

    def renew(self):
        """From now on another file, which isn't there."""
        if self.files:
            removed(self.path)
        self.files += 1
        self.path = os.path.join(self.folder, f'killed{self.files}')
        self.saved, self.trying = new_told(), None

    def turn(self):
        moment, ranks = self.chance.choice(MOMENTS), self.chance.randint(1, 4)
        self.told, self.moment = copy.deepcopy(self.saved), moment
        self.run = Served(self.program, self.path, '--ask', '--ranks', str(ranks))
        self.told.tid, self.opened = self.tid, False
        timer = None
        if moment == 'opening':
            timer = self.kill_within(moment)
        begin = time.monotonic()
        try:
            self.run.say('objects')
            self.opened = True
            self.usual['opening'] = time.monotonic() - begin
            if moment == 'in changes':
                timer = self.kill_within(moment)
            self.go(ranks)
        except Ended:
            pass
        if timer:
            timer.join()
        self.tid = self.told.tid
        self.look(*self.run.close())

    def kill_within(self, moment):
        timer = threading.Timer(self.chance.uniform(0, 1.3) * self.usual[moment], self.run.process.send_signal, [signal.SIGKILL])
        timer.start()
        return timer

    def go(self, ranks):
        """Changes and flushes, until the run is killed."""
        changes, begin = Changes(self.run, self.told, self.chance, ranks), time.monotonic()
        for left in range(self.chance.randint(1, 3), -1, -1):
            changes.make(self.chance.randint(1, 40))
            if self.chance.random() < 0.8:
                changes.end_exports()
            if left == 0 and self.moment != 'in changes':
                break
            self.trying = copy.deepcopy(self.told)
            self.flushed(self.run.say('flush'))
        if self.moment == 'in changes':
            self.usual[self.moment] = time.monotonic() - begin
            return self.run.process.kill()
        self.trying = copy.deepcopy(self.told)
        self.kill_at_last()

    def kill_at_last(self):
        """A flush, or the end of the input, and a kill in it."""
        if self.moment == 'in a flush':
            begin, timer = time.monotonic(), self.kill_within(self.moment)
            try:
                self.flushed(self.run.say('flush'))
                self.usual[self.moment] = time.monotonic() - begin
            finally:
                timer.join()
        elif self.moment == 'at its end':
            self.run.process.stdin.close()
            timer, begin = self.kill_within(self.moment), time.monotonic()
            self.run.process.wait()
            self.usual[self.moment] = max(time.monotonic() - begin, 0.001)
            timer.join()
        else:
            self.run.process.kill()

    def flushed(self, said):
        """What the flush under way came to."""
        if said == 'flushed':
            self.saved = self.trying
        wants(said in ('flushed', 'refused 18'), f'a flush prints {said}')
        self.trying = None

    def look(self, status, printed, told):
        """Looks at what the kill left, and goes on from there."""
        if printed and self.trying is not None and self.moment != 'at its end':
            self.flushed(printed.splitlines()[-1]) if printed.endswith('\n') else None
        ended = self.moment == 'at its end' and status >= 0
        if ended:
            refused = f'cephmeta: {self.path}: not all is saved: '
            wants((status, told) == (0, '') or status == 1 and told.startswith(refused), f'the end is {status}: {told}')
            self.saved, self.trying = self.saved if status else self.trying, None
        wants(ended or (status, told) == (-signal.SIGKILL, ''), f'status {status}: {told}')
        allowed = [it for it in (self.saved, self.trying) if it is not None]
        which = self.which([it.tree() for it in allowed])
        self.saved, self.trying = allowed[which], None
        self.ended += ended
        what = (self.moment, 'ended' if ended else ['the last', 'the one under way'][which])
        self.counts[what] = self.counts.get(what, 0) + 1

    def which(self, allowed):
        ranks = self.chance.randint(1, 4)
        if not self.opened and self.is_begun():
            # no tree was ever there, and sqlite3 can't say so
            return int(not shows(self.program, self.path, {}, ranks))
        return found(self.program, self.path, allowed, ranks)

    def is_begun(self):
        """Whether the file isn't there, or has no header yet: the first run was killed while it made the file."""
        if self.saved.table.rows or not os.path.exists(self.path):
            return not self.saved.table.rows
        with open(self.path, 'rb') as file:
            return file.read(16) != b'SQLite format 3\0'


def killed(program, folder, seed, count):
    """Kills `count` runs; some more end before their kill. Each tenth begins a new file."""
    it, runs = Killed(program, folder, seed), 0
    while sum(it.counts.values()) - it.ended < count:
        runs += 1
        if runs % 10 == 0:
            it.renew()
        try:
            it.turn()
        except Unsound as why:
            it.run.process.kill()
            raise Unsound(f'seed {seed}, run {runs}, killed {it.moment}: {why}') from None
    return it.counts
