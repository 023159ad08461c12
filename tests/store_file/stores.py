"""A store file as sqlite3 reads it, and the tree that its rows are by the formats alone."""
import os
import shutil
import sqlite3

from formats import (ENDING, ROOT, Header, Unsound, bits_of, bytes_of, entry_of, header_bytes, header_of, leaves_of, object_name,
                     tree_bytes, tree_name, wants)

TABLES = ('CREATE TABLE object (name TEXT NOT NULL PRIMARY KEY, header BLOB NOT NULL) WITHOUT ROWID',
          'CREATE TABLE omap (object TEXT NOT NULL, key TEXT NOT NULL, value BLOB NOT NULL, PRIMARY KEY (object, key)) WITHOUT ROWID',
          'CREATE TABLE session_map (key BLOB NOT NULL PRIMARY KEY, value BLOB NOT NULL) WITHOUT ROWID')


def copied(path, to):
    """Copies a file and its log, as they are, over what is there; and gives the path."""
    for end in ('', '-wal'):
        if os.path.exists(path + end):
            shutil.copyfile(path + end, to + end)
        elif os.path.exists(to + end):
            os.remove(to + end)
    return to


def removed(path):
    for end in ('', '-wal', '-shm', '-journal'):
        if os.path.exists(path + end):
            os.remove(path + end)


def log_of(path):
    """The bytes of the log; none where there is no log."""
    return open(path + '-wal', 'rb').read() if os.path.exists(path + '-wal') else None


def rows_of(path, log=True):
    """The objects with their headers, and the pairs of each with their values, by sqlite3 over a copy: of the file and its log, or of
    the file alone."""
    return read_by(path, rows_by, log)


def read_by(path, reader, log=True):
    """What a reader finds in a copy of a file and its log, or of the file alone."""
    copy = copied(path, path + '.read')
    if not log and os.path.exists(copy + '-wal'):
        os.remove(copy + '-wal')
    base = sqlite3.connect(copy)
    try:
        return reader(base)
    except sqlite3.DatabaseError as error:
        raise Unsound(f'sqlite3 says {error}') from error
    finally:
        base.close()
        removed(copy)


def rows_by(base):
    base.text_factory = bytes
    checked = base.execute('PRAGMA integrity_check').fetchall()
    wants(checked == [(b'ok',)], f'the integrity check says {checked}')
    tables = [sql.decode() for sql, in base.execute('SELECT sql FROM sqlite_schema ORDER BY name')]
    if not tables:
        # a file that was killed before it had its tables
        return {}, {}
    wants(tables == sorted(TABLES), f'there are the tables {tables}')
    objects = dict(base.execute('SELECT name, header FROM object'))
    pairs = {name: {} for name in objects}
    for name, key, value in base.execute('SELECT object, key, value FROM omap'):
        wants(name in pairs, f'a pair of {name}, which is no object')
        pairs[name][key] = value
    return objects, pairs


def tree_of(rows):
    """The tree of these rows, from (number of a directory, name) to inode. Each object has to be that of a leaf or of a tree, each
    name in the leaf of its hash, each number there once, and each header has to count what is there."""
    objects, pairs = rows
    tree, numbers, left = {}, {ROOT}, set(objects)
    directories = [ROOT]
    while directories:
        ino = directories.pop()
        for name, inode in entries_of(ino, objects, pairs, left):
            wants(inode.ino not in numbers, f'number {inode.ino:x} is there twice')
            numbers.add(inode.ino)
            tree[ino, name] = inode
            if inode.kind == 'dir':
                directories.append(inode.ino)
    wants(not left, f'{sorted(left)} belong to nothing')
    return tree


def entries_of(ino, objects, pairs, left):
    """The entries of a directory; its objects are taken out of those that are left."""
    tree = tree_name(ino)
    leaves = leaves_of(objects[tree]) if tree in objects else ['']
    wants(not pairs.get(tree), f'{tree} has pairs')
    left.discard(tree)
    for leaf in leaves:
        name = object_name(ino, leaf)
        if name not in objects:
            # nothing was ever in the root
            wants((ino, leaf) == (ROOT, ''), f'there is no {name}')
            continue
        left.discard(name)
        entries = [(key[:-len(ENDING)], entry_of(value)) for key, value in pairs[name].items() if is_key(key)]
        wants(leaf == '' or all(bits_of(it).startswith(leaf) for it, _ in entries), f'{name} has a name of another leaf')
        dirs = sum(inode.kind == 'dir' for _, inode in entries)
        header = header_of(objects[name])
        wants(header == Header(header.version, len(entries) - dirs, dirs), f'{name} counts {header}, and has {len(entries)}')
        yield from entries


def is_key(key):
    wants(key.endswith(ENDING) and 0 < len(key) - len(ENDING) < 256, f'a key {key}')
    return True


def rows_for(tree, leaves, version=2):
    """The rows of a tree; `leaves` has the leaves of those directories that have several."""
    numbers = [ROOT] + [inode.ino for inode in tree.values() if inode.kind == 'dir']
    objects, pairs = {}, []
    for ino in numbers:
        entries = {name: inode for (directory, name), inode in tree.items() if directory == ino}
        for leaf in leaves.get(ino, ['']):
            inside = {name: inode for name, inode in entries.items() if bits_of(name).startswith(leaf)}
            dirs = sum(inode.kind == 'dir' for inode in inside.values())
            objects[object_name(ino, leaf)] = header_bytes(len(inside) - dirs, dirs)
            pairs += [(object_name(ino, leaf), name + ENDING, bytes_of(inode, version)) for name, inode in inside.items()]
        if ino in leaves:
            objects[tree_name(ino)] = tree_bytes(leaves[ino])
    return list(objects.items()), pairs


def written(path, tree, leaves=None, version=2, pragmas=()):
    """Makes a store of a tree by sqlite3. Texts may have any bytes, so they go in as blobs that are made texts."""
    objects, pairs = rows_for(tree, leaves or {}, version)
    base = sqlite3.connect(path)
    for pragma in pragmas:
        base.execute(f'PRAGMA {pragma}').fetchall()
    for table in TABLES:
        base.execute(table)
    base.executemany('INSERT INTO object VALUES (CAST(? AS TEXT), ?)', objects)
    base.executemany('INSERT INTO omap VALUES (CAST(? AS TEXT), CAST(? AS TEXT), ?)', pairs)
    base.commit()
    base.close()
