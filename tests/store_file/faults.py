"""Each call of the system on the file refused in turn, in runs that open it, flush three times, and end."""
import os
import re
import signal
import subprocess

from formats import ROOT, Unsound, wants
from kills import differences
from served import Ended, Served, Told, answer_of, inode_of, ran, went
from sessions import left_in
from stores import copied, log_of, removed, rows_of, tree_of, written

HERE = os.path.dirname(os.path.abspath(__file__))
FLUSHES = [['mkdir 1 d 755 uid 7', 'create 1 a 644', 'symlink 1 l /x/y', 'setpin 1 d 0', 'req 0 1 1 1 create 1 q 644', 'req 0 2 5 5 readdir 1 - 9'],
           ['unlink 1 a', 'create 1 b%ff 600', 'rename 1 l 1 m', 'req 0 1 2 1 unlink 1 q'] + [f'create 1 f{k} 644' for k in range(60)],
           ['setattr 1 m mtime 5', 'rmdir 1 d', 'req 0 2 6 6 mkdir 1 r 700', 'req 0 3 9 1 lookup 1 q'] + [f'unlink 1 f{k}' for k in range(30)],
           ['create 1 last 644', 'req 0 1 4 2 readlink 1 m']]
ERRORS = ['ENOSPC', 'EIO', 'short']
# calls that a `short` can meet: the others give no bytes
PARTLY = ('pread', 'pwrite')
# a read gives no error of a full disk
NEVER_FULL = ('pread', 'statx', 'fcntl', 'lseek', 'realpath', 'close', 'unlink', 'fchmod', 'fchown', 'posix_fadvise')
UNSAVED = 'not all is saved: '
OPENINGS = ['the disk failed to read or write', 'the disk is full', 'no permission to read and write the file, or to make a file in its folder',
            r'.*\(os error \d+\)', 'disk fault']


def library(folder):
    """Builds the library that refuses calls."""
    path = os.path.join(folder, 'refuse_call.so')
    subprocess.run(['gcc', '-O1', '-shared', '-fPIC', '-o', path, os.path.join(HERE, 'refuse_call.c'), '-ldl'], check=True)
    return path


class Faults:
    """Runs over a file as `before` has it, or over none. `trees` are the trees before and behind each flush, the last by the end, each with the
    sessions of its clients."""

    def __init__(self, program, folder, before=None, flushes=FLUSHES):
        self.program, self.folder, self.before, self.flushes = program, folder, before, flushes
        self.library, self.path = os.environ['REFUSE_CALL'], os.path.join(folder, 'refused')
        self.told = os.path.join(folder, 'calls')
        self.script = [line for lines in flushes[:-1] for line in [*lines, 'flush']] + flushes[-1]
        self.renew()
        first = left_in(self.path) if before else {}
        status, self.printed, told = self.run()
        wants((status, told) == (0, ''), f'the run without a fault ends with {status}: {told}')
        self.trees = [first, *self.behind(first)]
        self.calls = self.seen()
        wants(left_in(self.path) == self.trees[-1], f'the run without a fault leaves another tree: {differences(left_in(self.path), self.trees[-1:])}')

    def behind(self, first):
        """The trees behind each flush, by the plain table."""
        table, sessions = Told(), {at: it for at, it in first.items() if at[0] < 0}
        table.begin({at: it for at, it in first.items() if at[0] > 0})
        for line, said in zip(self.script, self.printed):
            if line == 'flush':
                wants(said == 'flushed', f'a flush prints {said}')
                yield table.tree() | sessions
            else:
                client, tid, oldest, operation = request_of(line, sessions)
                table.hear(operation, said)
                wants(said.split()[1:3] == [str(client), str(tid)], f'{line}: {said}, and not a reply to {client}, {tid}')
                asked(sessions, client, tid, oldest, answer_of(said))
        yield table.tree() | sessions

    def renew(self):
        """The file as it was before the runs."""
        removed(self.path)
        if self.before:
            copied(self.before, self.path)

    def run(self, how='', first=0, last=0):
        """Runs the script with these calls refused."""
        if os.path.exists(self.told):
            os.remove(self.told)
        return ran(self.program, self.path, self.script, '--ask', env=self.environment(how, first, last))

    def environment(self, how, first, last):
        return {**os.environ, 'LD_PRELOAD': self.library, 'WATCHED': self.path, 'CALLS_TOLD': self.told, 'REFUSAL': how,
                'FIRST_REFUSED': str(first), 'LAST_REFUSED': str(last)}

    def seen(self):
        """The names of the calls of the last run, in order."""
        return [line.split()[1] for line in open(self.told)]

    def look(self, status, printed, told, once):
        """Looks at what a run printed, and what it left; gives the words for what came of it."""
        wants(status in (0, 1), f'the program ends with {status}')
        prefix, others = f'cephmeta: {self.path}: ', [said for said, line in zip(self.printed, self.script) if line != 'flush']
        wants(not told or told.startswith(prefix) and told.count('\n') == 1, f'the program says {told}')
        words = told[len(prefix):].rstrip('\n')
        if not printed and status == 1 and not words.startswith(UNSAVED):
            wants(any(re.fullmatch(it, words) for it in OPENINGS), f'an open that is refused says {told}')
            self.is_left(self.trees[:1], opened=False)
            return f'not opened: {words}'
        flushes = [said for said, line in zip(printed, self.script) if line == 'flush']
        wants([said for said, line in zip(printed, self.script) if line != 'flush'] == others, f'the replies are {printed}')
        wants(len(flushes) == len(self.flushes) - 1, f'the flushes print {flushes}')
        self.is_left(self.allowed(flushes, status, words, once))
        return ' '.join(flushes + [words or 'ended'])

    def allowed(self, flushes, status, words, once):
        """The trees that the file may have behind these flushes and this end. One that is shut takes nothing any more; from any other
        failure the next flush recovers, where no further call is refused."""
        last, tried, before = 0, 0, 'flushed'
        for k, said in enumerate(flushes, 1):
            wants(said in ('flushed', 'unsaved full', 'unsaved io', 'unsaved shut'), f'a flush prints {said}')
            wants(before != 'unsaved shut' or said == before, f'the flushes print {flushes}')
            wants(said != 'unsaved shut' or before != 'flushed', f'the flushes print {flushes}')
            wants(not once or before == 'flushed' or said in ('flushed', 'unsaved shut'), f'the flushes print {flushes}')
            last, tried = (k, k) if said == 'flushed' else (last, tried) if said == 'unsaved shut' else (last, k)
            before = said
        wants((status == 0) == (words == ''), f'status {status}, and the end says {words}')
        if not words.startswith(UNSAVED):
            # all is saved, be it that the log couldn't be brought into the file
            wants(not words or words.startswith(f'all is saved, but in part in {self.path}-wal: '), f'the end says {words}')
            wants(before != 'unsaved shut', f'a file that is shut took the end: {words}')
            return self.trees[-1:]
        shut = words.startswith(f'{UNSAVED}the file is shut')
        wants(shut or before != 'unsaved shut', f'a file that is shut says at the end {words}')
        return self.trees[last:tried + 1] + ([] if shut else self.trees[-1:])

    def is_survived(self, how, k):
        """Kills the program at a call: it leaves the tree of the last flush that was answered, or the one under way."""
        run, answered = Served(self.program, self.path, '--ask', env=self.environment(how, k, k)), 0
        try:
            for lines in self.flushes[:-1]:
                wants(run.ask([*lines, 'flush'])[-1] == 'flushed', 'a flush is not kept')
                answered += 1
            run.ask(self.flushes[-1])
        except Ended:
            pass
        status, _, told = run.close()
        wants((status, told) == (-signal.SIGKILL, ''), f'status {status}: {told}')
        self.is_left(self.trees[answered:answered + 2], opened=answered > 0)

    def is_left(self, allowed, opened=True):
        """The file has one of these trees with its sessions, and the next run goes on from it."""
        if opened or self.before:
            tree = left_in(self.path)
            wants(tree in allowed, f'the tree is none of those that may be there: {differences(tree, allowed)}')
        printed = went(self.program, self.path, ['create 1 next 644', 'flush'])
        wants(printed[1] == 'flushed', f'the next run prints {printed}')
        wants(log_of(self.path) is None, 'the next run left a log')
        tree = left_in(self.path)
        inode = tree.pop((1, b'next'), None)
        wants(inode, 'the next run saved something else')
        after = [(with_answer(it, 'create 1 next 644', f'entry {inode.ino:x} file 644 0 0'), place_behind(it)) for it in allowed]
        wants(tree in [it for it, _ in after], f'the next run saved something else: {differences(tree, [it for it, _ in after])}')
        replies = [f'reply 0 {it[-1, 0][0]} {place} new {it[-1, 0][1][it[-1, 0][0]]}' for it, place in after if it == tree]
        wants(printed[0] in replies, f'the next run prints {printed[0]}, and not {replies}')


def request_of(line, sessions):
    """The client, number, oldest number and operation of a line: a bare operation is the next request of client 0, which asks for no
    earlier one any more."""
    if line.startswith('req '):
        _, _, client, tid, oldest, operation = line.split(' ', 5)
        return int(client), int(tid), int(oldest), operation
    tid = sessions.get((-1, 0), (0, {}))[0] + 1
    return 0, tid, tid, line


def asked(sessions, client, tid, oldest, answer):
    """A new request was answered: its client's mark and replies."""
    mark, replies = sessions.get((-1, client), (0, {}))
    mark = max(mark, oldest)
    sessions[-1, client] = mark, {it: reply for it, reply in replies.items() if it >= mark} | {tid: answer}


def with_answer(tree, line, answer):
    """A tree with the session of a request that was answered."""
    sessions = dict(tree)
    asked(sessions, *request_of(line, sessions)[:3], answer)
    return sessions


def place_behind(tree):
    """The place of a run's first new request: behind one for each reply that is kept, and one for each mark."""
    return sum((it[0] > 0) + len(it[1]) for at, it in tree.items() if at[0] < 0)


class LongLog(Faults):
    """A run whose second flush finds a log of more than a thousand pages, and puts it into the file first. All names are new."""

    MANY = 7200

    def __init__(self, program, folder):
        flushes = [[f'create 1 {k:0250d} 644' for k in range(self.MANY)], ['create 1 a 644'], ['create 1 b 644'], ['create 1 last 644']]
        super().__init__(program, folder, flushes=flushes)

    def behind(self, first):
        tree = dict(first)
        for line, said in zip(self.script, self.printed):
            if line == 'flush':
                wants(said == 'flushed', f'a flush prints {said}')
                yield dict(tree)
            else:
                client, tid, oldest, _ = request_of(line, tree)
                wants(said.split()[1:3] == [str(client), str(tid)], f'{line}: {said}, and not a reply to {client}, {tid}')
                tree[ROOT, line.split()[2].encode()] = inode_of(answer_of(said))
                asked(tree, client, tid, oldest, answer_of(said))
        yield tree

    def checkpoint(self):
        """Some of the calls that put the log into the file: the first and the last ones, and one between."""
        pages = [(k, name) for k, name in enumerate(self.calls, 1) if name == self.calls[k - 2] == self.calls[k - 3] == self.calls[k - 4]]
        reads, writes = ([k for k, name in pages if name == kind] for kind in ('pread', 'pwrite'))
        wants(len(reads) > 900 and len(writes) > 900, f'{len(reads)} pages of the log are read, and {len(writes)} written')
        return [reads[0], writes[0], writes[500], writes[-1], *range(writes[-1] + 1, writes[-1] + 7)]


def long_log(program, folder):
    """Calls refused, and kills, while a long log goes into the file within a flush."""
    it = LongLog(program, folder)
    calls = it.checkpoint()
    counts = each_refused(it, errors=['EIO'], calls=calls)
    each_killed(it, calls=calls[1::2])
    return counts


def meets(how, name):
    """Whether a call of this name can be refused so."""
    return name in PARTLY if how == 'short' else how != 'ENOSPC' or name not in NEVER_FULL


def each_refused(it, past=0, errors=ERRORS, calls=None):
    """Each call refused, or each of these, and `past` calls behind it; gives how often each came."""
    counts, failed = {}, []
    for how in errors:
        for k, name in enumerate(it.calls, 1):
            if not meets(how, name) or calls and k not in calls:
                continue
            it.renew()
            try:
                words = it.look(*it.run(how, k, k + past), once=past == 0)
                wants((how, name) != ('short', 'pwrite') or words == 'flushed flushed flushed ended', f'a short write: {words}')
                counts[words] = counts.get(words, 0) + 1
            except Unsound as why:
                failed.append(f'{how} at call {k}, {name}: {why}')
    wants(not failed, f'{len(failed)} faults: {" | ".join(failed[:5])}')
    return counts


def each_killed(it, how='kill', calls=None):
    """Kills the program in place of each call, or in the middle of each write. The lines of a flush are given to it at once, and the next
    ones when it has answered."""
    for k, name in enumerate(it.calls, 1):
        if (how == 'kill' or name == 'pwrite') and (not calls or k in calls):
            it.renew()
            try:
                it.is_survived(how, k)
            except Unsound as why:
                raise Unsound(f'{how} at call {k}, {name}: {why}') from None


def planted(program, folder):
    """What a wrong program would print and leave behind a refused call: each is seen."""
    it, seen = Faults(program, folder), []
    dropped = [*FLUSHES[0], 'flush', 'rmdir 1 d', 'flush', *FLUSHES[-1]]
    full, told = f'cephmeta: {it.path}: {UNSAVED}the disk is full\n', 'flushed unsaved full flushed'
    for what, script, flushes, status, words in (
            ('notes that are dropped though their transaction failed', dropped, told, 0, ''),
            ('a flush that saves nothing and says that it did', dropped, 'flushed flushed flushed', 0, ''),
            ('a next flush that saves nothing either', [*FLUSHES[0], 'flush'], 'flushed unsaved full unsaved full', 1, full),
            ('an end that saves nothing and says nothing', it.script[:-1], told, 0, ''),
            ('a status without words', it.script[:-1], told, 1, ''),
            ('words without a status', it.script[:-1], told, 0, full),
            ('words of another flush', it.script, 'flushed unsaved because flushed', 0, '')):
        it.renew()
        ran(program, it.path, script, '--ask')
        said = iter(flushes.replace('unsaved ', 'unsaved_').split())
        printed = [next(said).replace('_', ' ') if line == 'flush' else reply for line, reply in zip(it.script, it.printed)]
        try:
            it.look(status, printed, words, once=True)
        except Unsound:
            seen.append(what)
            continue
        raise Unsound(f'nothing sees {what}')
    return seen


def started(program, folder, before):
    """The runs over a file that `before` makes, or over none."""
    return Faults(program, folder, before and before(program, folder))


def with_tree(program, folder):
    """A file with a tree, as a run leaves it that ends."""
    path = os.path.join(folder, 'there')
    went(program, path, ['mkdir 1 old 755'] + [f'create 1 o{k} 644' for k in range(80)] + ['req 0 7 1 1 lookup 1 o1', 'req 0 2 4 4 lookup 1 o2', 'flush', 'unlink 1 o3',
                                                                                                 'dirfrag split 0 1 * 1'], '--ask')
    return path


def with_log(program, folder):
    """A file with a tree, of which the log has two transactions: its run was killed."""
    path = with_tree(program, folder)
    run = Served(program, path, '--ask')
    for line in ['create 1 x 644', 'flush', 'unlink 1 o7', 'req 0 7 2 1 unlink 1 o8', 'flush', 'create 1 unsaved 644', 'req 0 7 3 3 lookup 1 o8']:
        run.say(line)
    run.process.kill()
    run.close()
    return path


def with_foreign(program, folder):
    """A file of sqlite3, whose pages have no sums."""
    path = os.path.join(folder, 'foreign')
    written(path, tree_of(rows_of(with_tree(program, folder))), {1: ['0', '1']})
    return path
