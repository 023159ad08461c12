"""Faults that are planted in a file, or in the program: the look that the kills take at what a kill left has to see each."""
import os
import sqlite3
import sys

from formats import Unsound, bytes_of, entry_of, wants
from kills import found
from served import Served, answer_of
from stores import copied, removed, rows_of, tree_of, written


def killed_run(program, path):
    """A run that was killed behind two flushes; gives copies of what each flush left."""
    run, copies = Served(program, path), []
    for lines in (['mkdir 1 d 755', 'create 1 a 644', 'create 1 b 600 uid 4', 'symlink 10000000000 l t', 'mkdir 1 g 700', 'create 1 f 600', 'flush'],
                  ['setattr 1 a size 7', 'rename 1 b 10000000000 c', 'mkdir 1 e 700', 'rmdir 1 g', 'unlink 1 f', 'create 1 h 600', 'flush']):
        for line in lines:
            run.say(line)
        copies.append(copied(path, f'{path}.{len(copies)}'))
    answer_of(run.say('create 1 lost 644'))
    run.process.kill()
    run.close()
    return copies


def by_sqlite3(*lines):
    """A plant of these lines, each of which changes something; `was` has what the flush before left."""
    def plant(path, copies):
        base = sqlite3.connect(path)
        base.execute('ATTACH ? AS was', [copies[0]])
        base.create_function('with_mtime', 1, lambda value: bytes_of(entry_of(value)._replace(mtime=1)))
        for line in lines:
            wants(base.execute(line).rowcount != 0, f'{line} changes nothing')
        base.commit()
        base.close()
    return plant


def cut(path, by):
    data = open(path, 'rb').read()
    with open(path, 'wb') as file:
        file.write(data[:by(data)])


def last_frame(log):
    """The length of a log, whose header has the size of its pages, without its last frame that is whole."""
    frame = 24 + int.from_bytes(log[8:12], 'big')
    return 32 + ((len(log) - 32) // frame - 1) * frame


SWAPPED = ("CREATE TEMP TABLE other AS SELECT * FROM omap",
           "UPDATE omap SET value = (SELECT value FROM other WHERE key = CASE omap.key WHEN 'a_head' THEN 'c_head' ELSE 'a_head' END) "
           "WHERE key IN ('a_head', 'c_head')")
# the rows of one object as the flush before left them
AS_BEFORE = ('DELETE FROM omap WHERE object = {0}', 'INSERT INTO omap SELECT * FROM was.omap WHERE object = {0}',
             'UPDATE object SET header = (SELECT header FROM was.object WHERE name = {0}) WHERE name = {0}')
D, E = "'10000000000.00000000'", "'10000000006.00000000'"
# a directory of two names and an empty one: their headers are exchanged, and their pairs
EXCHANGED = ('CREATE TEMP TABLE other AS SELECT * FROM object',
             f'UPDATE object SET header = (SELECT header FROM other WHERE name = CASE object.name WHEN {D} THEN {E} ELSE {D} END) WHERE name IN ({D}, {E})',
             f'UPDATE omap SET object = {E} WHERE object = {D}')
PLANTS = {
    'a changed key that isn\'t noted': by_sqlite3("UPDATE omap SET value = (SELECT value FROM was.omap WHERE key = 'a_head') WHERE key = 'a_head'"),
    'a new key that isn\'t noted': by_sqlite3("DELETE FROM omap WHERE key = 'h_head'"),
    'a removed key that isn\'t noted': by_sqlite3("INSERT INTO omap SELECT * FROM was.omap WHERE key = 'f_head'"),
    'a removed object that stays': by_sqlite3("INSERT INTO object SELECT * FROM was.object WHERE name LIKE '10000000004.%'"),
    'the first of two transactions alone': by_sqlite3(*(line.format("'1.00000000'") for line in AS_BEFORE)),
    'the second of two transactions alone': by_sqlite3(*(line.format(D) for line in AS_BEFORE)),
    'two objects under each other\'s names': by_sqlite3(*EXCHANGED),
    'a header of the flush before': by_sqlite3(AS_BEFORE[2].format("'1.00000000'")),
    'the log cut to its header': lambda path, _: cut(path + '-wal', lambda _: 32),
    'the log without its last frame': lambda path, _: cut(path + '-wal', last_frame),
    'the log gone': lambda path, _: os.remove(path + '-wal'),
    'the state of the flush before': lambda path, copies: copied(copies[0], path),
    'a pair gone': by_sqlite3("DELETE FROM omap WHERE key = 'a_head'"),
    'a pair gone, and not counted': by_sqlite3("DELETE FROM omap WHERE key = 'a_head'", "UPDATE object SET header = (SELECT header FROM object WHERE name "
                                               "LIKE '10000000000.%') WHERE name LIKE '1.%'"),
    'an object gone': by_sqlite3("DELETE FROM object WHERE name = '10000000000.00000000'"),
    'an object gone with its pairs': by_sqlite3("DELETE FROM object WHERE name LIKE '10000000000.%'", "DELETE FROM omap WHERE object LIKE '10000000000.%'"),
    'a directory that stays in the tables': by_sqlite3("DELETE FROM omap WHERE key = 'e_head'"),
    'two values swapped': by_sqlite3(*SWAPPED),
    'an attribute changed': by_sqlite3("UPDATE omap SET value = with_mtime(value) WHERE key = 'a_head'"),
    'a name that stays': by_sqlite3("INSERT INTO omap SELECT '1.00000000', 'b_head', value FROM omap WHERE key = 'c_head'"),
    'a header lost': by_sqlite3("UPDATE object SET header = x'' WHERE name = '1.00000000'"),
    'an object under another name': by_sqlite3("UPDATE object SET name = '10000000001.00000000' WHERE name LIKE '10000000000.%'"),
    'a key under another name': by_sqlite3("UPDATE omap SET key = 'A_head' WHERE key = 'a_head'"),
    'a bit of the file': lambda path, _: flipped(path),
}


def flipped(path):
    """Puts the log into the file, and changes a bit where sqlite3 doesn't look: the end of the file, which is a page's sum."""
    base = sqlite3.connect(path)
    base.execute('PRAGMA wal_checkpoint(TRUNCATE)').fetchall()
    base.close()
    data = bytearray(open(path, 'rb').read())
    data[-1] ^= 1
    with open(path, 'wb') as file:
        file.write(data)


WRAPPED = """#!{python}
import os, sqlite3, sys
base = sqlite3.connect(sys.argv[sys.argv.index('--store') + 1])
base.executescript({lines!r})
base.close()
os.execv({program!r}, [{program!r}, *sys.argv[1:]])
"""
# what a program may do wrong with a sound file; it begins with these lines
WRONG_PROGRAMS = {
    'objects read under each other\'s names': "; ".join(EXCHANGED),
    'a value read for another\'s': "; ".join(SWAPPED),
    'an object that isn\'t read': "DELETE FROM omap WHERE key = 'a_head'; DELETE FROM object WHERE name LIKE '10000000006.%'",
}


def planted(program, folder):
    """Plants each, and wants it to be seen."""
    path = os.path.join(folder, 'planted')
    copies = killed_run(program, path)
    tree = tree_of(rows_of(path))
    wants(found(program, path, [tree]) == 0 and len(tree) == 6, 'what a kill left isn\'t the last flush')
    seen = {}
    for what, plant in PLANTS.items():
        other = copied(path, f'{path}.other')
        plant(other, copies)
        see(seen, what, program, other, tree)
        removed(other)
    other = os.path.join(folder, 'sound')
    # its pages have no sums, so that a wrong program may change it
    written(other, tree)
    wants(found(program, other, [tree]) == 0, 'what sqlite3 wrote isn\'t the tree')
    for what, lines in WRONG_PROGRAMS.items():
        see(seen, what, wrapped(program, folder, lines), other, tree)
    wants(len(seen) == len(PLANTS) + len(WRONG_PROGRAMS), f'nothing sees: {", ".join({*PLANTS, *WRONG_PROGRAMS} - {*seen})}')
    return seen


def wrapped(program, folder, lines):
    """A program that does this to its file first."""
    path = os.path.join(folder, 'wrapped')
    with open(path, 'w') as file:
        file.write(WRAPPED.format(python=sys.executable, program=program, lines=lines))
    os.chmod(path, 0o755)
    return path


def see(seen, what, program, path, tree):
    try:
        found(program, path, [tree])
    except Unsound as why:
        seen[what] = str(why)
