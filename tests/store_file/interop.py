"""Databases that sqlite3 wrote open; those that the program wrote are read by it."""
import os
import random
import sqlite3

from formats import ROOT, Inode, wants
from served import Served, shown, went
from stores import removed, rows_of, tree_of, written

FIRST = 1 << 40
NAMES = [b'a', b'-', b'%', b' ', b'\xff\xfe', b'\xc3\xa9', b'x' * 255, b'_head', b'a_head', b'A']


def random_tree(chance, count):
    """A tree of all kinds, attributes and names of any bytes."""
    tree, folders = {}, [ROOT]
    for k in range(count):
        # numbers of several ranks
        ino = FIRST * chance.randrange(1, 17) + k
        kind = chance.choice(['file', 'file', 'dir', 'link'])
        at = chance.choice(folders), chance.choice(NAMES) if k < 20 else b'n%d' % k
        if at in tree:
            continue
        target = bytes(chance.randrange(1, 256) for _ in range(chance.choice([1, 7, 4095]))) if kind == 'link' else b''
        size = {'file': chance.randrange(1 << 64), 'dir': 0, 'link': len(target)}[kind]
        pin = chance.choice([None, 0, 15]) if kind == 'dir' else None
        tree[at] = Inode(ino, kind, chance.randrange(0o10000), size, chance.randrange(1 << 64), chance.randrange(1 << 32),
                         chance.randrange(1 << 32), pin, target)
        folders += [ino] if kind == 'dir' else []
    return tree


def opened(program, path, tree, what, options=()):
    """A file that sqlite3 made opens, shows its tree, and goes on; sqlite3 reads what the program made of it."""
    of_program = shown(program, path, *options)
    wants(of_program == tree, f'{what}: another tree')
    wants(tree_of(rows_of(path)) == tree, f'{what}: another tree behind the run')
    printed = went(program, path, ['create 1 new 644', 'mkdir 1 newer 700', 'flush', 'create 1 newest 644 gid 5', 'unlink 1 new'], *options)
    wants(printed[2] == 'flushed' and len(printed) == 5, f'{what}: {printed}')
    after = tree_of(rows_of(path, log=False))
    added = {at: inode for at, inode in after.items() if at not in tree}
    wants({at: inode for at, inode in after.items() if at in tree} == tree, f'{what}: changes changed something else')
    wants(sorted(added) == [(1, b'newer'), (1, b'newest')], f'{what}: changes made {added}')
    wants(added[1, b'newest'][1:] == ('file', 0o644, 0, 0, 0, 5, None, b''), f'{what}: it made {added}')
    wants(not {inode.ino for inode in added.values()} & {inode.ino for inode in tree.values()}, f'{what}: a number is there twice')
    wants(shown(program, path) == after, f'{what}: the next run shows another tree')


def made_by_sqlite3(program, folder):
    """Databases that Python wrote, of pages of several sizes, in both modes of journal, of one leaf and of several."""
    chance = random.Random(1)
    for k, pragmas in enumerate([(), ('journal_mode = WAL',), ('page_size = 512',), ('page_size = 65536',), ('page_size = 1024',)]):
        path, tree = os.path.join(folder, f'made{k}'), random_tree(chance, 200)
        folders = [ROOT] + [inode.ino for inode in tree.values() if inode.kind == 'dir']
        leaves = {ino: chance.choice([['0', '1'], ['00', '01', '1'], ['0', '10', '110', '111']]) for ino in folders if chance.random() < 0.3}
        written(path, tree, leaves, pragmas=pragmas)
        wants(tree_of(rows_of(path)) == tree, 'the reader reads something else than was written')
        opened(program, path, tree, f'made with {pragmas or "nothing said"}', ('--ranks', str(k % 4 + 1)))


def older_entries(program, folder):
    """Entries of version 1, without owners and pins."""
    tree = {at: inode._replace(uid=0, gid=0, pin=None) for at, inode in random_tree(random.Random(2), 100).items()}
    path = os.path.join(folder, 'older')
    written(path, tree, version=1)
    opened(program, path, tree, 'version 1')


def bare_trees(program, folder):
    """A root of no object, and one of an empty one."""
    for leaves in (None, {}, {ROOT: ['0', '1']}):
        path = os.path.join(folder, 'bare')
        removed(path)
        written(path, {}, leaves)
        if leaves is None:
            by_hand(path, 'DELETE FROM object')
        opened(program, path, {}, f'an empty tree of leaves {leaves}')


def by_hand(path, line):
    base = sqlite3.connect(path)
    base.execute(line)
    base.commit()
    base.close()


def read_by_sqlite3(program, folder):
    """What the program wrote, each name told by hand."""
    path = os.path.join(folder, 'ours')
    went(program, path, ['mkdir 1 d 755 uid 1 gid 2', 'create 1 %ff%20%25 4777', 'symlink 10000000000 l a%20b', 'setpin 1 d 3',
                         'setattr 1 %ff%20%25 size 18446744073709551615 mtime 18446744073709551615', 'create 1 - 0', 'dirfrag split 0 1 * 1'], '--ranks', '4')
    wants(tree_of(rows_of(path, log=False)) == {
        (1, b'd'): Inode(FIRST, 'dir', 0o755, 0, 0, 1, 2, 3, b''),
        (1, b'\xff %'): Inode(FIRST + 1, 'file', 0o4777, 2**64 - 1, 2**64 - 1, 0, 0, None, b''),
        (FIRST, b'l'): Inode(FIRST + 2, 'link', 0o777, 3, 0, 0, 0, None, b'a b'),
        (1, b'-'): Inode(FIRST + 3, 'file', 0, 0, 0, 0, 0, None, b'')}, 'what the program wrote is read as another tree')
    objects, _ = rows_of(path)
    wants(sorted(objects) == [b'1.01000000', b'1.01800000', b'1.fragtree', b'10000000000.00000000'], f'the objects are {sorted(objects)}')


def read_behind_a_kill(program, folder):
    """sqlite3 reads what a kill left, and puts the log into the file as it ends: the program opens that with the same tree."""
    path = os.path.join(folder, 'killed')
    run = Served(program, path)
    run.ask([f'create 1 n{k} 644' for k in range(100)] + ['flush', 'unlink 1 n7', 'flush', 'create 1 lost 644'])
    run.process.kill()
    run.close()
    base = sqlite3.connect(path)
    names = sorted(key for key, in base.execute('SELECT key FROM omap'))
    base.close()
    wants(names == sorted(f'n{k}_head' for k in range(100) if k != 7), f'sqlite3 reads {names}')
    wants(sorted(name for _, name in shown(program, path)) == sorted(b'n%d' % k for k in range(100) if k != 7), 'the program shows another tree')
