"""The cluster: `cephmeta script` through a pipe, of which this process is the one client.

A request comes in at some rank and is brought to its answer there, or wherever the ranks forward it. Every fault is an OSError, whose number
is what a system call returns.

Each request has a number. With a store, a program that is killed is started again, and each request since the last flush that was answered is
repeated, in their order and with their numbers: one that is in the store already is answered as it was, and any other is done anew.
"""
import dataclasses
import errno
import os
import secrets
import subprocess
import sys

# so often is a step tried that another rank's step has to come before
TRIES = 10_000
# after so many requests each rank has a turn of its own, in which it splits, merges and hands over what is pinned elsewhere
TURNS_AFTER = 100
READS = {'lookup', 'readdir', 'readlink'}
# what a system call returns where memory, the store or inode numbers are lacking
LACKS = {1: errno.ENOMEM, 2: errno.EIO, 3: errno.ENOSPC}
UNSAVED = {'full': errno.ENOSPC, 'memory': errno.ENOMEM}
FROZEN, NO_PLACE, EXPORT_STANDS = 6, 16, 18
MAKES = {'create', 'mkdir', 'symlink'}
EXPORT = ['freeze', 'prep', 'send', 'import', 'finish']
# how often in a row a program is started again that is killed before it has answered another request
STARTS = 5
# a rank's inode numbers are those from 2^40 times the rank and one
RANK_BITS = 40


class Broken(OSError):
    """The program has ended, or said what no client can go on with: from then on each call fails with EIO."""

    def __init__(self, text):
        super().__init__(errno.EIO, text)


class Anew(Exception):
    """The program was killed, another one is started, and what no flush had answered is repeated. The line that it was killed at isn't
    answered, and what an administrator had begun is gone."""


@dataclasses.dataclass
class Asked:
    """A request that has changed something, and isn't in the store."""
    tid: int
    oldest: int
    rank: int
    operation: str
    answer: list


def refusal(said):
    """The number of a refusal, or none."""
    word, *rest = said.split()
    return int(rest[0]) if word == 'refused' else None


class Asking:
    """Requests by `script --ask`: the program brings each to its answer itself, and keeps none that it refuses."""
    words = ['--ask']
    gone = {1, 2, 3}        # the refusals after which a request waits no longer

    def answer(self, cluster, rank, tid, oldest, operation):
        return cluster.say(f'req {rank} {cluster.client} {tid} {oldest} {operation}')

    def forget(self):
        """Nothing waits in a program."""


class Stepping:
    """Requests step by step: queued at a rank, forwarded to its master, and granted by the ranks whose fragments it would change."""
    words = []
    gone = {3}

    def __init__(self):
        self.forget()

    def forget(self):
        self.waiting = None     # the request that was refused and is still at the front of a rank's inbox, and that rank

    def answer(self, cluster, rank, tid, oldest, operation):
        if self.waiting and self.waiting[0] == tid:
            rank = self.waiting[1]
        else:
            said = cluster.say(f'req {rank} {cluster.client} {tid} {oldest} {operation}')
            if said != 'queued':
                return said
        said, rank = self.served(cluster, rank, tid)
        if said == 'deferred':
            for other in range(cluster.ranks):
                if other != rank:
                    cluster.say(f'grant {other} {cluster.client} {tid}')
            said, rank = self.served(cluster, rank, tid)
        # with all grants it waits for what is frozen alone
        said = f'refused {FROZEN}' if said == 'deferred' else said
        self.waiting = (tid, rank) if refusal(said) else None
        return said

    def served(self, cluster, rank, tid):
        """What serving a rank's front comes to, here or where it is forwarded to; and the rank there."""
        said = cluster.say(f'serve {rank}')
        if said.startswith('forwarded'):
            rank = int(said.split()[1])
            said = cluster.say(f'serve {rank}')
        return said, rank


class Cluster:
    """The program with its pipe."""

    def __init__(self, program, ranks=1, cache=None, store=None, chaos=None, flush_every=2000, restart_after=None):
        self.ranks, self.chaos, self.store, self.flush_every, self.restart_after = ranks, chaos, store, flush_every, restart_after
        usage = subprocess.run([program, 'script', '--help'], capture_output=True, text=True, check=True).stdout
        self.way = Asking() if '--ask' in usage else Stepping()
        self.command = [program, 'script', '--ranks', str(ranks), *self.way.words]
        # no more is remembered than the replies that the one client may ask for again
        self.command += ['--history', '0'] if '--history' in usage else []
        self.command += ['--cache', str(cache)] if cache else []
        self.command += ['--store', store] if store else []
        # sessions outlive a program, so no other mount of this store may have this client's number
        self.client = 1 + secrets.randbelow((1 << 64) - 1)
        self.tid = self.requests = self.oldest = self.killed = 0
        self.unflushed, self.left = [], []      # what is repeated where the program is killed, and what of it isn't yet
        self.is_repeating = False
        self.fault = None
        self.changed = set()            # directories whose leaves may not be in the store
        self.flushed = lambda: None     # is called when all is in the store
        self.start_again(None)

    def start(self):
        """Begins a program. The first line that it answers tells that it could."""
        pipes = dict.fromkeys(('stdin', 'stdout', 'stderr'), subprocess.PIPE)
        try:
            self.process = subprocess.Popen(self.command, start_new_session=True, **pipes)
        except OSError as error:
            self.breaks(f'no program can be started: {error}')
        self.since_start = 0
        self.way.forget()
        self.say('get subtrees')

    def say(self, line):
        """Writes a line, and gives the line that is printed for it."""
        if self.fault:
            raise self.fault
        try:
            self.process.stdin.write(line.encode() + b'\n')
            self.process.stdin.flush()
            said = self.process.stdout.readline()
        except BrokenPipeError:
            said = b''
        if not said.endswith(b'\n'):
            self.has_ended(line)
        return said[:-1].decode()

    def has_ended(self, line):
        """The program has ended at a line. Where it was killed another one goes on."""
        told = self.process.stderr.read().decode()
        status = self.process.wait()
        for pipe in (self.process.stdout, self.process.stderr):
            pipe.close()
        self.killed += 1
        if status >= 0 or not self.store or self.killed > STARTS:
            self.breaks(f'the program has ended, at: {line}\n{told}'.strip())
        if not self.is_repeating:
            self.start_again(f'signal {-status} ended the program')
        raise Anew

    def start_again(self, why):
        """Begins another program, and repeats what isn't in the store. It may be killed meanwhile, and so on."""
        self.is_repeating = True
        try:
            while True:
                try:
                    self.start()
                    if self.chaos:
                        self.chaos.forget()
                    repeated = self.repeat_all()
                    break
                except Anew:
                    """That one was killed too."""
        finally:
            self.is_repeating = False
        if why:
            print(f'cephmeta-mount: {why}: another one goes on, and {repeated} requests since the last flush are repeated', file=sys.stderr, flush=True)

    def repeat_all(self):
        """Repeats what no flush has answered; says how many requests that were. A flush meanwhile answers for those that are repeated."""
        self.left, self.unflushed = self.unflushed, []
        count = len(self.left)
        try:
            while self.left:
                self.repeat(self.left[0])
                self.unflushed.append(self.left.pop(0))
        except Anew:
            self.unflushed += self.left
            raise
        return count

    def repeat(self, it):
        """Repeats a request, which has to be answered as it was: what it made has to be given the same number, and so by the same rank."""
        if it.operation.split()[0] in MAKES:
            self.hand_over(it.operation.split()[1], (int(it.answer[1], 16) >> RANK_BITS) - 1)
        try:
            words = self.answered(it.tid, it.oldest, it.rank, it.operation).split()
        except OSError as error:
            if error is self.fault:
                raise
            self.breaks(f'{it.operation}: repeated, it comes to: {error.strerror}')
        if words[0] != 'reply' or words[5:] != it.answer:
            self.breaks(f'{it.operation}: repeated, it is answered {" ".join(words)}, and was answered {" ".join(it.answer)}')
        self.note(it.operation.split(), it.answer)

    def hand_over(self, directory, rank):
        """Exports the leaves of a directory to a rank, but those that it has."""
        if self.ranks == 1:
            return
        word, *leaves = self.say(f'dirfrag ls {directory}').split()
        for leaf in leaves[1:] if word == 'frags' else []:
            named = f'{directory} {leaf}'
            master = self.say(f'authority {named}').split()[1]
            if int(master) == rank or refusal(self.say(f'export dir {master} {named} {rank}')):
                continue
            if any(refusal(self.say(f'export {step} {named}')) for step in EXPORT):
                self.say(f'export cancel {named}')

    def breaks(self, text):
        print(f'cephmeta-mount: {text}', file=sys.stderr, flush=True)
        self.fault = Broken(text)
        raise self.fault

    def request(self, operation):
        """A request's answer, in words. An errno is raised."""
        self.look_after()
        if self.chaos:
            self.chaos.stir(self)
        return self.bring(operation)

    def bring(self, operation):
        self.tid += 1
        oldest, rank = self.oldest if self.store else self.tid, self.tid % self.ranks
        words = self.answered(self.tid, oldest, rank, operation).split()
        self.killed = 0
        # it is answered again where the program was killed behind its first answer
        if words[0] == 'reply' and words[1:3] == [str(self.client), str(self.tid)]:
            words = words[5:]
        elif words[0] != 'errno':
            self.breaks(f'{operation}: {" ".join(words)}')
        if words[0] == 'errno':
            raise OSError(int(words[1]), os.strerror(int(words[1])))
        if self.store and operation.split()[0] not in READS:
            self.unflushed.append(Asked(self.tid, oldest, rank, operation, words))
        self.note(operation.split(), words)
        return words

    def note(self, operation, answer):
        """The directories whose names an operation has changed, and a new one."""
        if operation[0] not in READS:
            self.changed.update(int(number, 16) for number in (operation[1:4:2] if operation[0] == 'rename' else operation[1:2]))
            if operation[0] == 'mkdir':
                self.changed.add(int(answer[1], 16))

    def answered(self, tid, oldest, rank, operation):
        """The line that answers a request. While what it changes is frozen the ranks go on with their exports; while a rank's cache is full of
        what isn't in the store it is written there."""
        for _ in range(TRIES):
            try:
                said = self.way.answer(self, rank, tid, oldest, operation)
            except Anew:
                if self.is_repeating:
                    raise
                continue
            refused = refusal(said)
            if refused is None:
                return said
            if refused == FROZEN:
                self.take_turns()
            elif refused == NO_PLACE:
                self.flush()
            elif refused in self.way.gone:
                raise OSError(LACKS[refused], os.strerror(LACKS[refused]))
            else:
                break
        self.breaks(f'{operation}: {said}')

    def take_turns(self):
        """Each rank makes the next step of its own, if it has one; says whether any had, or may have. A cache that is full of what isn't in the store can't import
        anything, and no flush comes while an export stands: so all that has changed is committed then."""
        try:
            said = [self.say(f'own {rank}') for rank in range(self.ranks)]
            if any(line.endswith(f'refused {NO_PLACE}') for line in said):
                self.commit_changed()
        except Anew:
            if self.is_repeating:
                raise
            return True
        return any(line != 'none' for line in said)

    def commit_changed(self):
        for directory in [*self.changed]:
            word, *leaves = self.say(f'dirfrag ls {directory:x}').split()
            for leaf in leaves[1:] if word == 'frags' else []:
                rank = self.say(f'authority {directory:x} {leaf}').split()[1]
                self.say(f'commit {rank} {directory:x} {leaf}')

    def settle(self):
        """The ranks make steps of their own until none has any."""
        for _ in range(TRIES):
            if not self.take_turns():
                break

    def look_after(self):
        """What comes around with the requests: own turns, flushes, and a new program in place of the old one, where that is asked for."""
        self.requests += 1
        self.since_start += 1
        if self.requests % TURNS_AFTER == 0:
            self.take_turns()
        if self.requests % min(self.flush_every, self.restart_after or self.flush_every) == 0:
            try:
                self.flush()
                if self.store and self.restart_after and self.since_start >= self.restart_after:
                    self.end()
                    self.start_again(None)
            except OSError as error:
                if error is self.fault:
                    raise
                # nothing is lost yet: the next flush brings it too
                print(f'cephmeta-mount: a flush: {error.strerror}', file=sys.stderr, flush=True)

    def flush(self):
        """Writes all that isn't in the store, and with --store into the file, when the exports that stand have come to their ends."""
        for _ in range(TRIES):
            try:
                said = self.say('flush')
            except Anew:
                if self.is_repeating:
                    raise
                continue
            if said == 'flushed':
                self.changed.clear()
                self.unflushed.clear()
                # the last request may not be answered yet
                self.oldest = self.left[0].tid if self.left else self.tid
                self.flushed()
                return
            if refusal(said) != EXPORT_STANDS:
                word, *reason = said.split()
                number = UNSAVED.get(reason[0], errno.EIO) if word == 'unsaved' else LACKS.get(refusal(said), errno.EIO)
                raise OSError(number, said)
            self.take_turns()
        raise OSError(errno.EBUSY, said)

    def end(self):
        """Lets the program end, which has been told to flush."""
        self.process.stdin.close()
        self.process.stdout.read()
        # where it is killed now, all is in the store
        if self.process.wait() > 0 or not self.store and self.process.returncode:
            self.breaks(f'the program ends with status {self.process.returncode}')
        if self.chaos:
            self.chaos.forget()

    def close(self):
        """The last flush, and the end."""
        if not self.fault:
            self.flush()
            self.end()
