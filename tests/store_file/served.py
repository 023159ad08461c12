"""The program over a store file: a line at a time, or a whole script."""
import re
import subprocess

from formats import ROOT, Inode, Unsound, wants
from table import Entry, Table

# a run that takes longer hangs
PATIENCE = 60
AT_ONCE = 100


def spelled(name):
    """A name as a line of a script has it."""
    return ''.join(chr(it) if 0x21 <= it <= 0x7e and it != 0x25 else f'%{it:02x}' for it in name) if name != b'-' else '%2d'


def meant(word):
    """The bytes that a word of a line stands for."""
    return re.sub(rb'%([0-9a-fA-F]{2})', lambda it: bytes([int(it[1], 16)]), word.encode())


class Ended(Exception):
    """The program has ended."""


class Served:
    """A program that runs."""

    def __init__(self, program, path, *options, **more):
        self.process = subprocess.Popen([program, 'script', '--store', path, *options], stdin=subprocess.PIPE,
                                        stdout=subprocess.PIPE, stderr=subprocess.PIPE, **more)

    def say(self, line):
        """What a line prints."""
        return self.ask([line])[0]

    def ask(self, lines):
        """What some lines print: so many are given at once as their answers have room in a pipe."""
        printed = []
        for k in range(0, len(lines), AT_ONCE):
            part = lines[k:k + AT_ONCE]
            try:
                self.process.stdin.write('\n'.join([*part, '']).encode())
                self.process.stdin.flush()
            except BrokenPipeError:
                raise Ended() from None
            printed += [self.process.stdout.readline() for _ in part]
            if not printed[-1].endswith(b'\n'):
                raise Ended()
        return [line[:-1].decode() for line in printed]

    def close(self):
        """Ends the input: the status, what was printed and not read yet, and what is told on standard error."""
        try:
            self.process.stdin.close()
        except BrokenPipeError:
            pass
        printed, told = self.process.stdout.read(), self.process.stderr.read()
        self.process.stdout.close()
        self.process.stderr.close()
        return self.process.wait(PATIENCE), printed.decode(), told.decode()


def ran(program, path, script, *options, **more):
    """Runs a whole script: the status, the lines that it printed, and what it told on standard error."""
    try:
        done = subprocess.run([program, 'script', '--store', path, *options], input='\n'.join(script).encode() + b'\n',
                              capture_output=True, timeout=PATIENCE, **more)
    except subprocess.TimeoutExpired:
        raise Unsound('the program hangs') from None
    return done.returncode, done.stdout.decode().splitlines(), done.stderr.decode()


def went(program, path, script, *options):
    """Runs a whole script where it has to end well, and gives the lines that it printed."""
    status, printed, told = ran(program, path, script, *options)
    wants((status, told) == (0, ''), f'status {status}: {told}')
    return printed


def answer_of(line):
    """The answer in a reply."""
    words = line.split(' ', 5)
    wants(words[0] == 'reply' and words[4] == 'new', f'no reply, but: {line}')
    return words[5]


def inode_of(answer, target=b''):
    """The inode in an answer that begins with `entry`."""
    _, ino, kind, mode, size, mtime, *rest = answer.split()
    owner = rest[1:3] if rest[:1] == ['owner'] else (0, 0)
    pin = int(rest[-1]) if rest[-2:-1] == ['pin'] else None
    return Inode(int(ino, 16), kind, int(mode, 8), int(size), int(mtime), int(owner[0]), int(owner[1]), pin, target)


def shown(program, path, *options):
    """The tree that a run over a file shows, from (number of a directory, name) to inode."""
    run = Served(program, path, '--ask', *options)
    tree, directories = {}, [ROOT]
    try:
        while directories:
            ino = directories.pop()
            for name in listed(run, ino):
                at = f'{ino:x} {spelled(name)}'
                inode = inode_of(answer_of(run.say(f'lookup {at}')))
                if inode.kind == 'link':
                    inode = inode._replace(target=meant(answer_of(run.say(f'readlink {at}')).split()[1]))
                if inode.kind == 'dir':
                    directories.append(inode.ino)
                tree[ino, name] = inode
    except Ended:
        raise Unsound(f'the program ends with {run.close()}') from None
    ended = run.close()
    wants(ended == (0, '', ''), f'the program ends with {ended}')
    return tree


def listed(run, ino):
    names, after, more = [], '-', 'more'
    while more == 'more':
        _, _, more, *page = answer_of(run.say(f'readdir {ino:x} {after} 1024')).split()
        names += [meant(word.rsplit(':', 1)[0]) for word in page]
        after = spelled(names[-1]) if names else '-'
    return names


def tree_by(table):
    """The tree of the plain table."""
    return {(row.directory, meant(row.name)): Inode(row.ino, row.kind, row.mode, row.size, row.mtime, row.uid, row.gid, row.pin,
                                                    meant(row.target or '')) for row in table.rows}


class Told:
    """The plain table (tests/operation_table), to which operations are told as the program answers them."""

    MADE = ('create', 'mkdir', 'symlink')

    def __init__(self):
        self.table = Table()

    def hear(self, line, said):
        """The answer to an operation has to be the table's. Numbers of what is made are the program's, and new."""
        if said.startswith('refused'):
            return
        answer = answer_of(said)
        words = answer.split()
        if line.split()[0] in self.MADE and words[0] == 'entry':
            self.table.next_ino = int(words[1], 16)
            wants(not any(row.ino == self.table.next_ino for row in self.table.rows), f'{line}: number {words[1]} is taken')
        wanted = self.table.answer(line)
        wants(answer == wanted, f'{line}: {answer}, and not {wanted}')

    def begin(self, tree):
        """Begins with a tree."""
        for (directory, name), inode in tree.items():
            row = Entry(directory, spelled(name), inode.ino, {'uid': inode.uid, 'gid': inode.gid}, inode.kind, inode.mode, inode.size,
                        spelled(inode.target))
            row.mtime, row.pin = inode.mtime, inode.pin
            self.table.rows.append(row)

    def tree(self):
        return tree_by(self.table)
