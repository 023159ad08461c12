"""Clients that number their requests, and repeat each that they have no answer to, over runs that are killed at random moments (SIGKILL).

What each line has to print is told by the plain table (tests/operation_table) and by what was told before: a request that is repeated is
answered as it was at first, if it is in the file; if not, it is new; and one that is older than its client asks for is refused 4. Lines
without numbers are client 0's, and its numbers go on behind those in the file. Behind each kill the file has tree, sessions and next
numbers of the last flush that was answered, or all three of the one under way.

Two kinds of clients. A careful one repeats, in their order, also those requests that were answered since the last flush that was answered:
nothing that it asked for is lost. An easy one repeats those alone to which it has no answer. Each name is that of one request.
"""
import copy
import os
import pickle
import random
import signal
import sqlite3
import sys
import tempfile
import threading
import time

from formats import FIRST, ROOT, Unsound, wants
from kills import differences
from served import Ended, Served, Told, inode_of
from sessions import key_of, replies_in, rows_of_sessions, session_bytes, session_of, sessions_of
from stores import TABLES, removed, rows_of, tree_of

# the client that makes so many directories for the others
MAKER, HOMES = 9, 5
MOMENTS = ['in requests', 'in requests', 'in a flush', 'in a flush', 'opening', 'at its end']
# how many runs use a file, one after the other
RUNS = 25


class State:
    """What a history has made: the tree, each client's mark and the replies that are kept for it, and which request was given each number."""

    def __init__(self):
        self.told, self.marks, self.replies, self.given = Told(), {}, {}, {}

    def wanted(self, client, tid, oldest, line, said):
        """What a request comes to, from (whether it is new, the answer). The number of what is made is taken of what was said; it has to be
        one that no other name was given."""
        mark, kept = self.marks.get(client, 0), self.replies.get(client, {})
        if tid < mark:
            return None, 'refused 4'
        if tid in kept:
            return False, kept[tid]
        words, table = said.split(' ', 5)[-1].split(), self.told.table
        if line.split()[0] in Told.MADE and words[0] == 'entry':
            number = int(words[1], 16)
            wants(number not in self.given, f'{line}: {words[1]} was given to {self.given.get(number)}, and is given to {client}, {tid}')
            table.next_ino, self.given[number] = number, (client, tid)
        answer, mark = table.answer(line), max(mark, oldest)
        self.marks[client], self.replies[client] = mark, {it: reply for it, reply in kept.items() if it >= mark} | {tid: answer}
        return True, answer

    def places(self):
        """How many places another run counts as used: one for each reply that is kept, and one for each mark."""
        return sum(map(len, self.replies.values())) + sum(mark > 0 for mark in self.marks.values())

    def nexts(self):
        """The next number of each rank that has given one."""
        found = {}
        for number in self.given:
            rank = number // FIRST - 1
            found[rank] = max(found.get(rank, 0), number + 1)
        return found

    def has(self, path, looks_at_rows=True):
        """Whether a file has this tree, these sessions and these numbers: what differs, or nothing."""
        tree = tree_of(rows_of(path))
        if tree != self.told.tree():
            return f'the tree differs: {differences(tree, [self.told.tree()])}'
        if not looks_at_rows:
            return None
        clients, nexts = sessions_of(rows_of_sessions(path))
        wanted = {client: (mark, self.replies[client]) for client, mark in self.marks.items()}
        if clients != wanted:
            return 'the sessions differ: ' + str([(it, clients.get(it), wanted.get(it)) for it in {*clients, *wanted} if clients.get(it) != wanted.get(it)][:2])
        told = {rank: number for rank, number in nexts.items() if number != (rank + 1) * FIRST}
        return None if told == self.nexts() else f'the next numbers are {told}, and not {self.nexts()}'


class Asked:
    """A request that its client may have to repeat."""

    def __init__(self, tid, oldest, line):
        self.tid, self.oldest, self.line, self.is_answered = tid, oldest, line, False


class Client:
    """`pending` are the requests that it may have to repeat, in their order; `again` those of them that it does."""

    def __init__(self, number, is_careful):
        self.number, self.is_careful, self.tid = number, is_careful, 0
        self.pending, self.again, self.own = [], [], {}

    def next(self, chance, homes):
        """The next request. A client may pass some numbers over."""
        self.tid += chance.choice([1, 1, 1, 1, 7])
        line = self.operation(chance, homes)
        self.pending.append(Asked(self.tid, min([it.tid for it in self.pending] + [self.tid]), line))
        return self.pending[-1]

    def operation(self, chance, homes):
        """A line. What a careful client has is told by what it asked for, since nothing of that is lost."""
        home, name, kinds = chance.choice(homes), f'c{self.number}_{self.tid}', ['create', 'create', 'mkdir', 'symlink', 'readdir']
        if not self.own:
            kind, old = chance.choice(kinds), None
        else:
            kind = chance.choice(kinds + ['rename', 'rename', 'setattr', 'lookup', 'readlink', 'remove', 'remove'])
            # the newest is removed often, so that a rank's last number is free
            newest = max(self.own, key=lambda it: int(it.rpartition('_')[2]))
            old = newest if kind == 'remove' and chance.random() < 0.6 else chance.choice(sorted(self.own))
        at = f'{self.own[old][0]:x} {old}' if old else None
        if kind in Told.MADE:
            self.own[name] = home, kind
            return f'{kind} {home:x} {name} {"t/%20" if kind == "symlink" else "755"}'
        if kind == 'readdir':
            return f'readdir {home:x} - {chance.choice([1, 30, 1024])}'
        if kind == 'rename':
            self.own[name] = home, self.own.pop(old)[1]
            return f'rename {at} {home:x} {name}'
        if kind == 'remove':
            return f'{"rmdir" if self.own.pop(old)[1] == "mkdir" else "unlink"} {at}'
        return f'setattr {at} mode 700 mtime {self.tid}' if kind == 'setattr' else f'{kind} {at}'

    def line_of(self, asked, rank):
        """The line of a request at this rank."""
        return f'req {rank} {self.number} {asked.tid} {asked.oldest} {asked.line}'

    def answered(self, asked):
        asked.is_answered = True
        self.again = [it for it in self.again if it is not asked]
        if not self.is_careful:
            self.pending = [it for it in self.pending if it is not asked]

    def lost(self, asked):
        """The answer doesn't come to the client."""
        if asked not in self.again:
            self.again.append(asked)

    def flushed(self):
        self.pending = [it for it in self.pending if not it.is_answered]

    def restarted(self):
        """The program is another one: all that is pending is repeated."""
        self.again = list(self.pending)
        for asked in self.again:
            asked.is_answered = False

    def looks(self, tree):
        """An easy client looks for what it has."""
        if not self.is_careful:
            mine = f'c{self.number}_'.encode()
            self.own = {name.decode(): (home, 'mkdir' if inode.kind == 'dir' else 'create') for (home, name), inode in tree.items() if name.startswith(mine)}

    def is_there(self, tree):
        """A careful client has what it asked for, once."""
        mine = sorted((name.decode(), home) for home, name in tree if name.startswith(f'c{self.number}_'.encode()))
        wanted = sorted((name, home) for name, (home, _) in self.own.items())
        wants(not self.is_careful or mine == wanted, f'client {self.number} asked for {wanted}, and there is {mine}')


class Alone(Client):
    """Client 0, whose lines have no numbers: the program gives them, behind those in the file. It repeats none."""

    def __init__(self):
        super().__init__(0, False)

    def next(self, chance, homes):
        self.tid += 1
        return Asked(self.tid, self.tid, self.operation(chance, homes))

    def line_of(self, asked, rank):
        return asked.line

    def lost(self, asked):
        pass


class Repeats:
    """Runs over one file, one after the other. `saved` is the state of the last flush that was answered, `trying` that of the one under way."""

    def __init__(self, program, folder, seed, moments=MOMENTS):
        self.program, self.folder, self.chance, self.moments = program, folder, random.Random(seed), moments
        # without, faults have to be seen by what is answered, and not by places or the file's rows
        self.looks_at_all = True
        self.usual = {'opening': 0.01, 'in a flush': 0.005, 'at its end': 0.005, 'in requests': 0.05}
        self.files, self.counts, self.seen = 0, {}, dict.fromkeys(('new', 'again', 'again behind a restart', 'refused 4'), 0)
        self.killed = 0
        self.renew()

    def renew(self):
        """From now on another file, with directories for the clients, that nothing ends."""
        self.files += 1
        self.path = os.path.join(self.folder, f'repeats{self.files}')
        self.saved, self.trying, self.now, self.is_killed = State(), None, State(), False
        numbers = [1, 2, 3, (1 << 64) - 1, self.chance.randrange(MAKER + 1, (1 << 64) - 1)]
        self.clients = [Client(number, k % 2 == 0) for k, number in enumerate(numbers)] + [Alone()]
        self.homes = []
        self.open('')
        for k in range(HOMES):
            line = f'mkdir 1 home{k} 755'
            said = self.run.say(f'req 0 {MAKER} {k + 1} {k + 1} {line}')
            self.hears(MAKER, k + 1, k + 1, line, said)
            self.homes.append(inode_of(said.split(' ', 5)[5]).ino)
        self.flush()
        wants(self.run.close() == (0, '', ''), 'the first run doesn\'t end well')

    def open(self, moment):
        """Starts a program. Its places begin with the replies that are kept."""
        self.moment, self.now = moment, copy.deepcopy(self.saved)
        self.begin, self.news, self.heard = self.now.places(), 0, {}
        self.ranks = self.chance.randint(1, 4)
        options = self.chance.choice([[], ['--history', '0'], ['--history', '3']])
        self.run, self.timer = Served(self.program, self.path, '--ask', '--ranks', str(self.ranks), *options), None
        for client in self.clients:
            client.restarted()
            client.looks(self.saved.told.tree())
        self.clients[-1].tid = self.saved.marks.get(0, 0)

    def turn(self):
        """A run, and what its kill leaves."""
        self.open(self.chance.choice(self.moments))
        if self.moment == 'opening':
            self.kill_within()
        begin = time.monotonic()
        try:
            self.run.say('objects')
            self.usual['opening'] = time.monotonic() - begin
            self.go()
        except Ended:
            pass
        if self.timer:
            self.timer.join()
        self.look(*self.run.close())

    def kill_within(self):
        seconds = self.chance.uniform(0, 1.3) * self.usual[self.moment]
        self.timer = threading.Timer(seconds, self.run.process.send_signal, [signal.SIGKILL])
        self.timer.start()

    def go(self):
        """Requests and flushes, until the run is killed."""
        self.hand_over()
        begin = time.monotonic()
        if self.moment == 'in requests':
            self.kill_within()
        for _ in range(self.chance.randint(1, 4)):
            self.ask(self.chance.randint(1, 60))
            self.flush()
        self.ask(self.chance.randint(1, 60))
        if self.moment == 'in requests':
            self.usual[self.moment] = time.monotonic() - begin
            self.timer.join()
            return
        begin, self.trying = time.monotonic(), copy.deepcopy(self.now)
        if self.moment == 'at its end':
            self.run.process.stdin.close()
            self.kill_within()
            self.run.process.wait()
        else:
            self.kill_within()
            self.flush()
        self.usual[self.moment] = max(time.monotonic() - begin, 0.001)

    def hand_over(self):
        """A directory goes to another rank, so that numbers are those of several ranks."""
        if self.ranks == 1 or self.chance.random() < 0.3:
            return
        leaf = f'{self.chance.choice(self.homes):x} *'
        rank = self.run.say(f'authority {leaf}').split()[1]
        other = self.chance.choice([it for it in range(self.ranks) if str(it) != rank])
        for step in (f'dir {rank} {leaf} {other}', *(f'{it} {leaf}' for it in ('freeze', 'prep', 'send', 'import', 'finish'))):
            said = self.run.say(f'export {step}')
            wants(said.split()[0] in ('nothing', 'sent'), f'export {step}: {said}')

    def ask(self, count):
        """Requests of all clients, some at once. What is to be repeated comes first, in its order."""
        while count > 0:
            batch = [self.one() for _ in range(self.chance.choice([1, 1, 4, 20]))]
            count -= len(batch)
            lines = [client.line_of(it, self.chance.randrange(self.ranks)) for client, it in batch]
            try:
                self.run.process.stdin.write('\n'.join([*lines, '']).encode())
                self.run.process.stdin.flush()
            except BrokenPipeError:
                raise Ended() from None
            for client, asked in batch:
                said = self.run.process.stdout.readline()
                if not said.endswith(b'\n'):
                    raise Ended()
                self.comes(client, asked, said[:-1].decode())

    def one(self):
        """A client and what it asks."""
        client = self.chance.choice(self.clients)
        mark = self.now.marks.get(client.number, 0)
        if client.number and self.chance.random() < 0.1 and mark > 1:
            tid = self.chance.choice([mark - 1, self.chance.randrange(1, mark)])
            return client, Asked(tid, self.chance.randint(0, tid), f'create 1 old{client.number}_{tid} 644')
        if client.again:
            # in one batch each comes once
            asked = client.again[0]
            client.again = client.again[1:]
            return client, asked
        return client, client.next(self.chance, self.homes)

    def comes(self, client, asked, said):
        """An answer, which may be lost on its way."""
        self.hears(client.number, asked.tid, asked.oldest, asked.line, said)
        if said == 'refused 4':
            wants(asked not in client.pending, f'client {client.number}, {asked.tid} is refused 4')
        elif self.chance.random() < 0.15:
            client.lost(asked)
        else:
            client.answered(asked)

    def hears(self, client, tid, oldest, line, said):
        """What was said has to be what is wanted."""
        is_new, answer = self.now.wanted(client, tid, oldest, line, said)
        if is_new is None:
            wants(said == answer, f'client {client}, {tid} below the mark: {said}')
            self.seen['refused 4'] += 1
            return
        words = said.split(' ', 5)
        wants(words[:3] == ['reply', str(client), str(tid)] and words[4:] == ['new' if is_new else 'again', answer],
              f'client {client}, {tid}, {line}: {said}, and not {"new" if is_new else "again"} {answer}')
        place = int(words[3])
        if is_new:
            wants(not self.looks_at_all or place == self.begin + self.news, f'client {client}, {tid}: place {place}, and not {self.begin} + {self.news}')
            self.news, self.heard[client, tid] = self.news + 1, place
        else:
            was = self.heard.get((client, tid))
            wants(place == was if was is not None else not self.looks_at_all or place < self.begin, f'client {client}, {tid}: place {place} again, and not {was}')
            self.seen['again behind a restart'] += was is None
        self.seen['new' if is_new else 'again'] += 1

    def flush(self):
        self.trying = copy.deepcopy(self.now)
        self.flushed(self.run.say('flush'))

    def flushed(self, said):
        """What the flush under way came to."""
        wants(said == 'flushed', f'a flush prints {said}')
        self.saved, self.trying = self.trying, None
        for client in self.clients:
            client.flushed()

    def look(self, status, printed, told):
        """Looks at what the kill left, and goes on from there."""
        ended = self.moment == 'at its end' and status >= 0
        wants((status, told) == ((0, '') if ended else (-signal.SIGKILL, '')), f'status {status}: {told}')
        if self.trying and self.moment == 'in a flush' and printed == 'flushed\n':
            self.flushed('flushed')
        if ended:
            self.saved, self.trying = self.trying, None
        allowed = [it for it in (self.saved, self.trying) if it]
        found = [it.has(self.path, self.looks_at_all) for it in allowed]
        wants(None in found, f'the file has none of the states that may be there: {" | ".join(filter(None, found))}')
        which = found.index(None)
        self.saved, self.trying = allowed[which], None
        what = self.moment, 'ended' if ended else ['the last', 'the one under way'][which]
        self.counts[what] = self.counts.get(what, 0) + 1
        self.killed += not ended

    def end(self):
        """The last run over a file: what is pending is asked again, until each request has its answer; then the tree has each once."""
        self.open('')
        for client in self.clients:
            for asked in list(client.again):
                said = self.run.say(client.line_of(asked, 0))
                self.hears(client.number, asked.tid, asked.oldest, asked.line, said)
                client.answered(asked)
        self.flush()
        wants(self.run.close() == (0, '', ''), 'the last run doesn\'t end well')
        differs = self.saved.has(self.path, self.looks_at_all)
        wants(not differs, f'at the end {differs}')
        tree = tree_of(rows_of(self.path))
        for client in self.clients:
            client.is_there(tree)
        wants(len({inode.ino for inode in tree.values()} - {ROOT}) == len(tree), 'a number is there twice')
        removed(self.path)


def repeated(program, folder, seed, count, moments=MOMENTS, looks_at_all=True):
    """Kills `count` runs; some more end before their kill."""
    it, runs = Repeats(program, folder, seed, moments), 0
    it.looks_at_all = looks_at_all
    while it.killed < count:
        runs += 1
        try:
            it.turn()
            if runs % RUNS == 0 or it.killed == count:
                it.end()
                it.renew()
        except Unsound as why:
            it.run.process.kill()
            raise Unsound(f'seed {seed}, run {runs}, killed {it.moment}: {why}') from None
    wants(count < 50 or all(number > count for number in it.seen.values()), f'there were only {it.seen}')
    return it.counts | it.seen


WRAPPED = """#!{python}
import os, sys
sys.dont_write_bytecode = True
sys.path[:0] = {folders!r}
import repeats
repeats.wrong({what!r}, sys.argv[sys.argv.index('--store') + 1])
os.execv({program!r}, [{program!r}, *sys.argv[1:]])
"""


def clients_in(rows):
    return sorted(key for key in rows if len(key) == 8)


def altered(rows, alter):
    """The rows with each client's mark and replies as `alter` has them."""
    for key in clients_in(rows):
        mark, replies = session_of(rows[key])
        bytes_of = {tid: rows[key][at:end] for tid, at, end in replies_in(rows[key])}
        rows[key] = session_bytes(*alter(mark, [(tid, bytes_of[tid]) for tid in replies]))
    return rows


def exchanged(rows):
    """The first two clients have each other's rows."""
    keys = clients_in(rows)[:2]
    return rows | {key: rows[other] for key, other in zip(keys, reversed(keys))}


def as_before(rows, path):
    """The rows as the run before found them."""
    other = path + '.rows'
    before = pickle.load(open(other, 'rb')) if os.path.exists(other) else rows
    with open(other, 'wb') as file:
        pickle.dump(rows, file)
    return before


# what a program may do wrong with the rows that it reads, all but client 0's; a file and its log is written anew with what it takes them for
WRONG = {
    'no rows are kept': lambda rows, _: {},
    'no clients are kept': lambda rows, _: {key: value for key, value in rows.items() if len(key) == 1},
    'no next numbers are kept': lambda rows, _: {key: value for key, value in rows.items() if len(key) == 8},
    'a client is not kept': lambda rows, _: {key: value for key, value in rows.items() if key not in clients_in(rows)[1:2]},
    'a next number is one too low': lambda rows, _: {key: (int.from_bytes(value, 'little') - 1).to_bytes(8, 'little')
                                                     if len(key) == 1 and int.from_bytes(value, 'little') % FIRST else value for key, value in rows.items()},
    'a mark is not kept': lambda rows, _: altered(rows, lambda mark, replies: (0, replies)),
    'a mark is one too low': lambda rows, _: altered(rows, lambda mark, replies: (max(mark, 1) - 1, replies)),
    'replies are not kept': lambda rows, _: altered(rows, lambda mark, replies: (mark, [])),
    'the last reply is not kept': lambda rows, _: altered(rows, lambda mark, replies: (mark, replies[:-1])),
    'a reply is kept under the next number': lambda rows, _: altered(rows, lambda mark, replies: (mark, replies[:-1] + [(replies[-1][0] + 1, replies[-1][1])])),
    'two clients have each other\'s rows': lambda rows, _: exchanged(rows),
    'the rows are those of the run before': as_before,
}
# and with the row of client 0
WRONG_OF_0 = {
    'client 0 is not kept': lambda rows, _: {},
    'the mark of client 0 is one too low': lambda rows, _: altered(rows, lambda mark, replies: (mark - 1, [])),
    'the row of client 0 is that of the run before': as_before,
}


def wrong(what, path):
    """Writes a file anew, without sums, with rows that something is wrong with."""
    if not os.path.exists(path):
        return
    tree, rows = rows_of(path), rows_of_sessions(path)
    rows_of_0 = {key_of(0): rows.pop(key_of(0))} if key_of(0) in rows else {}
    if what in WRONG_OF_0:
        rows_of_0 = WRONG_OF_0[what](rows_of_0, path)
    elif what:
        rows = WRONG[what](rows, path)
    removed(path)
    base = sqlite3.connect(path)
    for table in TABLES:
        base.execute(table)
    base.executemany('INSERT INTO object VALUES (CAST(? AS TEXT), ?)', tree[0].items())
    base.executemany('INSERT INTO omap VALUES (CAST(? AS TEXT), CAST(? AS TEXT), ?)', [(name, *pair) for name, pairs in tree[1].items() for pair in pairs.items()])
    base.executemany('INSERT INTO session_map VALUES (?, ?)', (rows | rows_of_0).items())
    base.commit()
    base.close()


def wrapped(program, folder, what):
    path, here = os.path.join(folder, 'wrong'), os.path.dirname(os.path.abspath(__file__))
    with open(path, 'w') as file:
        file.write(WRAPPED.format(python=sys.executable, program=program, folders=[here, os.path.join(here, '../operation_table')], what=what))
    os.chmod(path, 0o755)
    return path


def look_for(what, program, folder, seed, moments, seen):
    """Notes why a series of runs sees a fault, if it does."""
    with tempfile.TemporaryDirectory(dir=folder) as place:
        try:
            repeated(wrapped(program, place, what), place, seed, 80, moments, looks_at_all=False)
        except Unsound as why:
            wants('Traceback' not in str(why), f'{what}: {why}')
            seen[what] = str(why)


def planted(program, folder):
    """Each fault is seen by what is answered; and none where the file is but written anew."""
    moments, seen = [moment for moment in MOMENTS if moment != 'opening'], {}
    repeated(wrapped(program, folder, None), folder, 1, 10, moments)
    for what in [*WRONG, *WRONG_OF_0]:
        # when a program is killed is a matter of chance: a fault that one series doesn't see has two more
        for seed in range(1, 4):
            if what not in seen:
                look_for(what, program, folder, seed, moments, seen)
    wants(len(seen) == len(WRONG) + len(WRONG_OF_0), f'nothing sees: {", ".join({*WRONG, *WRONG_OF_0} - {*seen})}')
    return seen
