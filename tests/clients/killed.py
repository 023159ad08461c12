"""Kills. Behind one of a mount and its program the tree is that of the last flush; one of the program alone no client notices."""
import contextlib
import os
import random
import shutil
import threading
import time

from calls import ABOVE, Calls, NAMING, READING, outcome
from mounts import Mounted, TMPFS, equal, expect, room
from programs import git_session, new_repository
from trees import difference, tree_of

ROUNDS = 8
KILLS = 20


def flushed(path):
    """Asks for a flush, and returns when the tree is in the store."""
    handle = os.open(path, os.O_RDONLY)
    try:
        os.fsync(handle)
    finally:
        os.close(handle)


def try_to_flush(path):
    """A flush that the program may not live to answer."""
    outcome(flushed, path)


def killed(given):
    """In each round the last tree is there; random calls go on with it, a flush, and further calls, which change names and attributes alone, so that
    bytes stay as they were flushed. Then mount and program are killed, in each second round while it is told to flush; so either tree may be there
    then, whole."""
    rand = random.Random(given.seed)
    with room() as folder, room(TMPFS) as beside:
        words = ['--ranks', 3, '--chaos', 0.3, '--store', os.path.join(folder, 'tree.db'), '--data', os.path.join(folder, 'data'),
                 '--flush-every', 10**9, '--restart-after', 10**9]
        may_be = None
        for number in range(ROUNDS):
            with Mounted(given.program, folder, *words, '--seed', rand.randrange(10**6)) as mount:
                top = os.path.join(mount.path, ABOVE)
                found = tree_of(top) if may_be else {}
                expect(not may_be or found in may_be, f'after kill {number}: ' + str(may_be and [difference(found, tree) for tree in may_be]))
                # the calls go on with what is there, and on tmpfs with a copy of it
                alone = Calls(rand.randrange(10**6), mount.path)
                alone.make(500)
                flushed(top)
                may_be = [tree_of(top)]
                alone.make(rand.randrange(60), NAMING + READING)
                if number % 2:
                    may_be.append(tree_of(top))
                    flushing = threading.Thread(target=try_to_flush, args=[top])
                    flushing.start()
                    mount.kill()
                    flushing.join()
                else:
                    mount.kill()
        # an end that isn't a kill keeps all
        for end in (Mounted.unmount, Mounted.terminate):
            with Mounted(given.program, folder, *words) as mount:
                top = os.path.join(mount.path, ABOVE)
                Calls(rand.randrange(10**6), mount.path).make(300)
                wanted = tree_of(top)
                end(mount)
            with Mounted(given.program, folder, *words) as mount:
                equal(difference(tree_of(os.path.join(mount.path, ABOVE)), wanted), None, f'after {end.__name__}')
                mount.unmount()


@contextlib.contextmanager
def killing(mount, rand):
    """Kills the program again and again meanwhile, each second time when another one goes on, since a mount gives up behind many in a row; gives the list
    of the processes that were killed."""
    killed, ends = [], threading.Event()

    def kill():
        while not ends.wait(rand.uniform(0, 0.15)):
            starts = len(mount.repeated())
            if rand.random() < 0.5:
                killed.append(mount.kill_program())
            else:
                # in the middle of a flush, or just behind it
                flushing = threading.Thread(target=try_to_flush, args=[mount.path])
                flushing.start()
                time.sleep(rand.uniform(0, 0.01))
                killed.append(mount.kill_program())
                flushing.join()
            while len(killed) % 2 and len(mount.repeated()) == starts and not ends.wait(0.005):
                """Waits for the start."""

    thread = threading.Thread(target=kill)
    thread.start()
    try:
        yield killed
    finally:
        ends.set()
        thread.join()


def goes_on(given):
    """While the program is killed again and again each random call has the outcome that it has on tmpfs, and git does and leaves the same: nothing is
    lost, and nothing is done twice. Flushes come seldom, so that many requests are in no file yet. What is there at the end is there at the next mount."""
    rand = random.Random(given.seed)
    with room() as folder, room(TMPFS) as beside:
        words = ['--ranks', 3, '--chaos', 0.2, '--seed', given.seed, '--store', os.path.join(folder, 'tree.db'), '--data', os.path.join(folder, 'data'),
                 '--flush-every', 300]
        source, sessions = os.path.join(folder, 'source'), []
        os.mkdir(source)
        new_repository(source)
        with Mounted(given.program, folder, *words) as mount:
            calls = Calls(given.seed, *(made(top, 'calls') for top in (mount.path, beside)))
            with killing(mount, rand) as killed:
                while len(killed) < KILLS:
                    calls.make(100)
            calls.compare()
            with killing(mount, rand) as killed:
                while len(killed) < KILLS:
                    sessions.append(f'git{len(sessions)}')
                    (said, left), (wanted, wanted_left) = (git_session(source, made(top, sessions[-1])) for top in (mount.path, beside))
                    equal(said, wanted, 'git says of the clone')
                    equal(difference(left, wanted_left), None, 'the working tree')
            calls.compare()
            repeated = mount.repeated()
            expect(len(repeated) >= KILLS and sum(repeated) > 100, f'so many requests were repeated behind kills: {repeated}')
            mount.unmount()
        with Mounted(given.program, folder, *words) as mount:
            calls.compare()
            for name in sessions:
                left, wanted_left = (working_tree(os.path.join(top, name, 'clone')) for top in (mount.path, beside))
                equal(difference(left, wanted_left), None, 'mounted again the working tree')
            mount.unmount()


def made(top, name):
    """A new folder there."""
    path = os.path.join(top, name)
    os.mkdir(path)
    return path


def working_tree(clone):
    return {path: (found[0], found[4:], content) for path, (found, content) in tree_of(clone).items() if not path.startswith('.git')}


def cannot_go_on(given):
    """Where no other program can be started a call comes to EIO, and none hangs. What was flushed is there at the next mount."""
    with room() as folder:
        program, words = os.path.join(folder, 'program'), ['--store', os.path.join(folder, 'tree.db')]
        shutil.copy(given.program, program)
        with Mounted(program, folder, *words) as mount:
            os.mkdir(os.path.join(mount.path, 'flushed'))
            flushed(mount.path)
            os.mkdir(os.path.join(mount.path, 'lost'))
            os.remove(program)
            mount.kill_program()
            for _ in range(2):
                equal([outcome(os.listdir, mount.path), outcome(os.mkdir, os.path.join(mount.path, 'new'))], ['EIO', 'EIO'], 'without its program a mount says')
            mount.kill()
        with Mounted(given.program, folder, *words) as mount:
            equal(os.listdir(mount.path), ['flushed'], 'then there is')
            mount.unmount()
