"""Programs that nobody wrote for this file system. Each does the same on tmpfs, and leaves the same."""
import os
import random
import subprocess

from mounts import MOUNT, Mounted, TMPFS, equal, expect, room
from trees import difference, tree_of

TOP = os.path.join(os.path.dirname(os.path.abspath(__file__)), '../..')
WITH_CHAOS = ['--ranks', 3, '--chaos', 0.2]
# nobody's own settings, and the same commits at each run
GIT = {'PATH': os.environ['PATH'], 'HOME': '/nonexistent', 'GIT_CONFIG_NOSYSTEM': '1', 'LC_ALL': 'C', 'GIT_AUTHOR_NAME': 'a', 'GIT_COMMITTER_NAME': 'a',
       'GIT_AUTHOR_EMAIL': 'a@example.org', 'GIT_COMMITTER_EMAIL': 'a@example.org', 'GIT_AUTHOR_DATE': '1000000000 +0000',
       'GIT_COMMITTER_DATE': '1000000000 +0000'}


def ran(words, folder, **settings):
    """What a program prints, which has to end well."""
    run = subprocess.run([*map(str, words)], cwd=folder, stdout=subprocess.PIPE, stderr=subprocess.STDOUT, text=True, **settings)
    expect(run.returncode == 0, f'{" ".join(map(str, words))} ends with status {run.returncode}\n{run.stdout}')
    return run.stdout


def git_in(folder, *words):
    return ran(['git', '-c', 'init.defaultBranch=main', '-c', 'gc.autoDetach=false', '-c', 'safe.directory=*', *words], folder, env=GIT).strip()


def new_repository(folder):
    """A small repository of two branches and a link, with a file to be run."""
    git_in(folder, 'init', '-q')
    rand = random.Random(7)
    for number in range(12):
        for _ in range(8):
            path = os.path.join(folder, f'd{rand.randrange(5)}/e{rand.randrange(3)}/file {rand.randrange(40)}')
            os.makedirs(os.path.dirname(path), exist_ok=True)
            with open(path, 'w') as file:
                file.write(f'{number} {rand.random()}\n' * rand.randrange(1, 200))
        if number == 5:
            os.symlink('d0/e0', os.path.join(folder, 'link'))
            os.chmod(path, 0o755)
        if number == 8:
            git_in(folder, 'checkout', '-q', '-b', 'other')
        git_in(folder, 'add', '-A')
        git_in(folder, 'commit', '-q', '-m', f'commit {number}')
    git_in(folder, 'checkout', '-q', 'main')


def git_session(source, folder):
    """A clone, a commit, `gc`, `fsck` and another branch: what git says of it, and what then lies in the working tree."""
    git_in(folder, 'clone', '-q', f'file://{source}', 'clone')
    clone = os.path.join(folder, 'clone')
    with open(os.path.join(clone, 'new'), 'w') as file:
        file.write('new\n')
    git_in(clone, 'mv', 'link', 'other link')
    git_in(clone, 'add', '-A')
    git_in(clone, 'commit', '-q', '-m', 'new')
    said = [git_in(clone, 'rev-parse', 'HEAD', 'HEAD^{tree}')]
    git_in(clone, 'gc', '-q', '--prune=now')
    said += [git_in(clone, 'fsck', '--full', '--strict', '--no-progress'), git_in(clone, 'status', '--porcelain'),
             git_in(clone, 'count-objects')]
    git_in(clone, 'checkout', '-q', 'other')
    said += [git_in(clone, 'status', '--porcelain'), git_in(clone, 'log', '--format=%H %s'), git_in(clone, 'ls-files', '-s')]
    return said, {path: (found[0], found[4:], content) for path, (found, content) in tree_of(clone).items() if not path.startswith('.git')}


def git(given):
    """With --store git's fsyncs are flushes, and the program is started anew now and then, which git doesn't notice."""
    with room() as folder, room(TMPFS) as beside:
        source = os.path.join(beside, 'source')
        os.mkdir(source)
        new_repository(source)
        words = [*WITH_CHAOS, '--store', os.path.join(folder, 'tree.db'), '--data', os.path.join(folder, 'data'), '--restart-after', 1500]
        with Mounted(given.program, folder, *words) as mount:
            (said, left), (wanted, wanted_left) = git_session(source, mount.path), git_session(source, beside)
            equal(said, wanted, 'git says of the clone')
            equal(difference(left, wanted_left), None, 'the working tree')
            mount.terminate()
        with Mounted(given.program, folder, *words) as mount:
            clone = os.path.join(mount.path, 'clone')
            equal(git_in(clone, 'fsck', '--full', '--strict', '--no-progress') + git_in(clone, 'status', '--porcelain'), '', 'mounted again git says')
            mount.unmount()


def grow(folder, rand, files):
    """Files, links and directories with names, modes and times of all kinds."""
    for number in range(files):
        where = os.path.join(folder, *(f'dir {rand.randrange(4)}' for _ in range(rand.randrange(4))))
        os.makedirs(where, exist_ok=True)
        path = os.fsencode(os.path.join(where, rand.choice(['', 'ü ', '-', '%41', '\n', 'x' * 240])) + str(number)) + rand.choice([b'', b'\xff'])
        if rand.random() < 0.15:
            os.symlink(os.urandom(1).hex() if number % 2 else b'../' + bytes([rand.randrange(128, 256)]), path)
        else:
            with open(path, 'wb') as file:
                file.seek(rand.choice([0, 0, 0, 300_000]))
                file.write(rand.randbytes(rand.choice([0, 10, 5000, 200_000])))
            os.chmod(path, rand.choice([0o644, 0o600, 0o755, 0o444]))
        os.utime(path, ns=(0, rand.randrange(2 * 10**18)), follow_symlinks=False)
    for where, _, _ in os.walk(folder):
        os.utime(where, ns=(0, rand.randrange(2 * 10**18)))


def rsync(given):
    """There and back, again after changes, and each time rsync finds nothing left to do."""
    rand = random.Random(given.seed)
    with room() as folder, room(TMPFS) as beside, Mounted(given.program, folder, *WITH_CHAOS, '--seed', given.seed) as mount:
        source, there, back = os.path.join(beside, 'source'), os.path.join(mount.path, 'there'), os.path.join(beside, 'back')
        os.mkdir(source)
        for _ in range(2):
            grow(source, rand, 150)
            for begin, end in ((source, there), (there, back)):
                ran(['rsync', '-a', '--delete', f'{begin}/', f'{end}/'], beside)
                equal(ran(['rsync', '-a', '--delete', '--checksum', '--dry-run', '--itemize-changes', f'{begin}/', f'{end}/'], beside), '',
                      f'rsync would still do from {begin} to {end}')
                equal(difference(tree_of(end, exact_times=True), tree_of(begin, exact_times=True)), None, end)
            # some files are removed and some replaced: rsync writes the new ones under other names, and renames them onto these
            for number, path in enumerate(os.path.join(source, path) for path in sorted(tree_of(source))):
                if number % 7 < 2 and (os.path.islink(path) or os.path.isfile(path)):
                    os.unlink(path)
                    if number % 7 == 1:
                        with open(path, 'wb') as file:
                            file.write(rand.randbytes(3000))
        ran(['rm', '-r', there], mount.path)
        equal(os.listdir(mount.path), [], 'after `rm -r` there is')
        mount.unmount()


def session(given):
    """examples/mount/first.session, which README shows: each command prints what stands below it, `umount` after a mount in the background too."""
    with room() as folder, open(os.path.join(TOP, 'examples/mount/first.session')) as file:
        os.symlink(os.path.join(TOP, 'examples'), os.path.join(folder, 'examples'))
        wanted = file.read()
        with open(os.path.join(folder, 'cephmeta-mount'), 'w') as mount:
            mount.write(f'#!/bin/sh\nexec {MOUNT} --program {given.program} "$@"\n')
        os.chmod(mount.name, 0o755)
        printed = ''
        for command in (line for line in wanted.splitlines(True) if line.startswith('$ ')):
            words = command[2:].replace('examples/mount/cephmeta-mount', './cephmeta-mount')
            printed += command + ran(['bash', '-c', words], folder).replace(f'cephmeta-mount: {folder}/tree is mounted\n', '')
        equal(printed, wanted, 'the session is')
