"""A cluster that is mounted while a test runs, and folders of tmpfs beside it."""
import contextlib
import json
import os
import re
import select
import shutil
import signal
import subprocess
import tempfile
import time

HERE = os.path.dirname(os.path.abspath(__file__))
MOUNT = os.path.join(HERE, '../../examples/mount/cephmeta-mount')
TELL = os.path.join(HERE, '../../examples/mount/cephmeta-tell')
SYSTEM_PYTHON = '/usr/bin/python3'
# what a mount says of each program that was killed
ANEW = re.compile(r'cephmeta-mount: signal 9 ended the program: another one goes on, and (\d+) requests since the last flush are repeated')
TMPFS = '/dev/shm'


class Failed(Exception):
    pass


def lacking():
    """Why nothing can be mounted here, or nothing."""
    if not os.path.exists('/dev/fuse') or not os.access('/dev/fuse', os.R_OK | os.W_OK):
        return 'there is no device /dev/fuse that may be opened'
    for program, package in {'fusermount3': 'fuse3', 'git': 'git', 'rsync': 'rsync', 'setfattr': 'attr'}.items():
        if not shutil.which(program):
            return f'there is no {program} (package {package})'
    if subprocess.run([SYSTEM_PYTHON, '-c', 'import pyfuse3, trio'], capture_output=True).returncode:
        return f'{SYSTEM_PYTHON} has no pyfuse3 (package python3-pyfuse3)'
    for line in open('/proc/mounts'):
        if line.split()[1:3] == [TMPFS, 'tmpfs']:
            return None
    return f'{TMPFS} is no tmpfs'


def expect(is_so, text):
    if not is_so:
        raise Failed(text)


def equal(ours, wanted, text):
    if ours != wanted:
        raise Failed(f'{text}\n  is      {ours!r}\n  and not {wanted!r}')


@contextlib.contextmanager
def room(parent=None):
    """A folder for a while, of the disk or of tmpfs."""
    folder = tempfile.mkdtemp(prefix='cephmeta-', dir=parent)
    os.chmod(folder, 0o755)
    try:
        yield folder
    finally:
        shutil.rmtree(folder, ignore_errors=True)


class Mounted:
    """A mount below a folder. What it printed on standard error is told where a test fails."""

    def __init__(self, program, folder, *words, **more):
        self.is_killed = False
        self.path, self.errors = os.path.join(folder, 'mount'), os.path.join(folder, 'errors')
        os.makedirs(self.path, exist_ok=True)
        with open(self.errors, 'w') as errors:
            self.process = subprocess.Popen([SYSTEM_PYTHON, MOUNT, '--foreground', '--program', program, *map(str, words), self.path],
                                            stdout=subprocess.PIPE, stderr=errors, text=True, **more)
        if not self.process.stdout.readline().endswith('is mounted\n'):
            self.process.wait()
            raise Failed(f'nothing is mounted: {self.complaint()}')

    def __enter__(self):
        return self

    def __exit__(self, kind, *_):
        if self.process.poll() is None:
            self.kill()
        if kind:
            print(self.complaint(), end='')

    def complaint(self):
        return open(self.errors).read()

    def program(self):
        """The number of the program's process."""
        pid = self.process.pid
        return int(open(f'/proc/{pid}/task/{pid}/children').read().split()[0])

    def ended(self):
        """What the mount prints at its end: with chaos, how many steps of each kind there were."""
        printed = self.process.stdout.read()
        status = self.process.wait()
        unexpected = [line for line in self.complaint().splitlines() if not (self.is_killed and ANEW.fullmatch(line))]
        expect(status == 0 and not unexpected, f'the mount ends with status {status}: {unexpected}')
        return json.loads(printed) if printed else {}

    def unmount(self):
        subprocess.run(['fusermount3', '-u', self.path], check=True)
        return self.ended()

    def terminate(self):
        self.process.send_signal(signal.SIGTERM)
        return self.ended()

    def repeated(self):
        """How many requests were repeated behind each kill."""
        return [int(it[1]) for it in map(ANEW.fullmatch, self.complaint().splitlines()) if it]

    def kill(self):
        """Both processes end at once, and nothing is written any more: the mount stops before, or it would start another program."""
        self.process.send_signal(signal.SIGSTOP)
        while self.process.poll() is None and open(f'/proc/{self.process.pid}/stat').read().rsplit(') ')[-1][0] != 'T':
            time.sleep(0.001)
        self.kill_program()
        self.process.kill()
        self.process.wait()
        subprocess.run(['fusermount3', '-u', '-z', self.path], capture_output=True)

    def kill_program(self):
        """The program ends at once, and has let go of its files when this returns; gives its number, or none where there is none."""
        self.is_killed = True
        with contextlib.suppress(ProcessLookupError, IndexError, FileNotFoundError):
            program = self.program()
            handle = os.pidfd_open(program)
            os.kill(program, signal.SIGKILL)
            select.select([handle], [], [])
            os.close(handle)
            return program

    def tell(self, socket, line):
        return subprocess.run([SYSTEM_PYTHON, TELL, socket, *line.split()], capture_output=True, text=True).stdout.rstrip('\n')
