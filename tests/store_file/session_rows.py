"""Rows of the table session_map: those that break a rule are refused in words, and named; those of ranks that aren't there stay; a file
that was made before the table was opens as it did."""
import os
import re

import sqlite3

from formats import FIRST, wants
from served import ran, went
from sessions import key_of, rows_of_sessions, session_bytes, session_of, sessions_of
from stores import TABLES, log_of, removed, rows_of, tree_of, written
from kinds_of_file import content

DONE, ERRNO_2 = b'\4', b'\5\2\0'
# what client 0 does, which has no number in its line, and two more, of whom the first asks for its last two replies
CLIENTS = ['mkdir 1 d 755', 'req 0 1 1 1 create 10000000000 a 644', 'req 0 1 4 4 lookup 1 x', 'req 0 1 5 4 create 1 b 644 uid 7 gid 8', 'req 0 2 9 9 readdir 1 - 9']
TOLD = {0: (1, {1: 'entry 10000000000 dir 755 0 0'}),
        1: (4, {4: 'errno 2', 5: 'entry 10000000002 file 644 0 0 owner 7 8'}),
        2: (9, {9: 'entries 2 end b:10000000002 d:10000000000'})}


def cleared(program, folder, name='rows'):
    """A file of these clients as sqlite3 writes it, so that it may change rows."""
    path, first = os.path.join(folder, name), os.path.join(folder, 'first')
    removed(path)
    removed(first)
    went(program, first, CLIENTS, '--ask')
    rows = rows_of_sessions(first)
    written(path, tree_of(rows_of(first)))
    put(path, rows)
    removed(first)
    return path


def put(path, rows):
    """Gives keys these values, or takes their rows away."""
    base = sqlite3.connect(path)
    for key, value in rows.items():
        base.execute('DELETE FROM session_map WHERE key = ?', [key])
        if value is not None:
            base.execute('INSERT INTO session_map VALUES (?, ?)', [key, value])
    base.commit()
    base.close()


def is_kept(program, folder):
    """What is kept of three clients and a rank, and what a later run answers: a repeat as before, what is older is refused."""
    path = cleared(program, folder)
    wants(sessions_of(rows_of_sessions(path)) == (TOLD, {0: FIRST + 3}), f'the sessions are {sessions_of(rows_of_sessions(path))}')
    printed = went(program, path, ['req 0 1 4 4 lookup 1 d', 'req 0 1 5 4 rmdir 1 d', 'req 0 1 1 1 lookup 1 d', 'req 0 2 9 9 lookup 1 d', 'req 0 2 8 8 lookup 1 d',
                                   'req 0 1 6 6 create 1 c 644', 'req 0 1 5 4 lookup 1 d'], '--ask')
    again = re.sub(r'^(reply \d+ \d+) \d+ ', r'\1 P ', '\n'.join(printed), flags=re.M).splitlines()
    wants(again == [f'reply 1 4 P again {TOLD[1][1][4]}', f'reply 1 5 P again {TOLD[1][1][5]}', 'refused 4', f'reply 2 9 P again {TOLD[2][1][9]}', 'refused 4',
                    'reply 1 6 P new entry 10000000003 file 644 0 0', 'refused 4'], f'the next run prints {printed}')
    # places begin behind those of the four replies and the three marks that are kept
    wants(printed[5].split()[3] == '7' and all(int(printed[k].split()[3]) < 7 for k in (0, 1, 3)), f'the places are those of {printed}')
    told = TOLD | {1: (6, {6: 'entry 10000000003 file 644 0 0'})}
    wants(sessions_of(rows_of_sessions(path)) == (told, {0: FIRST + 4}), f'behind it the sessions are {sessions_of(rows_of_sessions(path))}')
    # client 0 goes on behind its mark, and asks for no earlier reply; three replies and three marks are kept now
    printed = went(program, path, ['mkdir 1 d 755', 'lookup 1 d'])
    wants(printed == ['reply 0 2 6 new errno 17', f'reply 0 3 7 new {TOLD[0][1][1]}'], f'the run behind it prints {printed}')
    told[0] = 3, {3: TOLD[0][1][1]}
    wants(sessions_of(rows_of_sessions(path)) == (told, {0: FIRST + 4}), f'at last the sessions are {sessions_of(rows_of_sessions(path))}')


def broken(program, folder):
    """Each rule broken by one row."""
    session = session_bytes
    for what, key, value, words in (
            ('a reply below the mark', key_of(1), session(4, [(3, DONE)]), 'client 1 .*below'),
            ('a reply below the mark of client 0', key_of(0), session(4, [(3, DONE)]), 'client 0 .*below'),
            ('a second reply below the mark', key_of(7), session(4, [(4, DONE), (3, DONE)]), 'client 7 .*below'),
            ('a number twice', key_of(1), session(4, [(4, DONE), (4, DONE)]), 'client 1 .*ascend'),
            ('numbers that fall', key_of(1), session(4, [(6, DONE), (5, DONE)]), 'client 1 .*ascend'),
            ('no reply', key_of((1 << 64) - 1), session(4, [(4, b'\x09')]), 'client 18446744073709551615 .*no reply'),
            ('an empty reply', key_of(1), session(4, [(4, b'')]), 'client 1 .*no reply'),
            ('a reply with a byte too many', key_of(1), session(4, [(4, DONE + b'\0')]), 'client 1 .*no reply'),
            ('half a reply', key_of(1), session(4, [(4, ERRNO_2[:2])]), 'client 1 .*no reply'),
            ('a second reply that is none', key_of(2), session(4, [(4, DONE), (5, b'\0')]), 'client 2 .*no reply'),
            ('no mark', key_of(1), b'\4' + bytes(6), 'client 1 .*breaks off'),
            ('nothing', key_of(2), b'', 'client 2 .*breaks off'),
            ('nothing of client 0', key_of(0), b'', 'client 0 .*breaks off'),
            ('a row that breaks off', key_of(1), session(4, [(4, ERRNO_2)])[:-1], 'client 1 .*breaks off'),
            ('a byte behind the end', key_of(1), session(4, [(4, DONE)]) + b'\0', 'client 1 .*breaks off'),
            ('a key of rank 16', b'\x10', (17 * FIRST).to_bytes(8, 'little'), '.* key'),
            ('a key of 3 bytes', b'\0\0\1', session(4, []), '.* key'),
            ('a key of 7 bytes', bytes(7), session(4, []), '.* key'),
            ('a key of 9 bytes', bytes(9), session(4, []), '.* key'),
            ('an empty key', b'', session(4, []), '.* key'),
            ('a next number below the range', b'\0', (FIRST - 1).to_bytes(8, 'little'), 'rank 0 .*range'),
            ('a next number of the rank before', b'\1', FIRST.to_bytes(8, 'little'), 'rank 1 .*range'),
            ('a next number above the range', b'\0', (2 * FIRST + 1).to_bytes(8, 'little'), 'rank 0 .*range'),
            ('a next number of rank 15 above all', b'\x0f', (17 * FIRST + 1).to_bytes(8, 'little'), 'rank 15 .*range'),
            ('a next number of 7 bytes', b'\2', (3 * FIRST).to_bytes(8, 'little')[:7], 'rank 2 .*breaks off'),
            ('a next number of 9 bytes', b'\2', (3 * FIRST).to_bytes(9, 'little'), 'rank 2 .*'),
            ('a text for a value', key_of(1), 'text', '.*'), ('a text for a key', 'text', DONE, '.*')):
        refused(program, cleared(program, folder), folder, what, {key: value}, words)


def refused(program, path, folder, what, rows, words):
    put(path, rows)
    before = content(folder)
    status, printed, told = ran(program, path, ['create 1 more 644', 'flush'])
    wants((status, printed) == (1, []) and re.fullmatch(f'cephmeta: {re.escape(path)}: .*{words}.*\n', told), f'{what}: {status} {printed} {told}')
    wants(content(folder) == before, f'{what}: the file is changed, or a log is left')


def sound(program, folder):
    """Rows that break none: no reply, clients of the least and the greatest number, a rank that has given all of its numbers."""
    path = cleared(program, folder)
    put(path, {key_of((1 << 64) - 1): session_bytes(1 << 63, [((1 << 64) - 1, ERRNO_2)]), key_of(3): session_bytes(0, []),
               b'\0': (2 * FIRST).to_bytes(8, 'little'), b'\1': (2 * FIRST).to_bytes(8, 'little'), b'\x0f': (17 * FIRST).to_bytes(8, 'little')})
    last = (1 << 64) - 1
    printed = went(program, path, [f'req 0 {last} {last} {1 << 63} lookup 1 d', f'req 0 {last} {(1 << 63) - 1} 1 lookup 1 d', 'req 0 3 1 1 create 1 c 644',
                                   'req 0 3 2 2 lookup 1 d'], '--ask')
    wants([line.split(' ', 4)[4] if line.startswith('reply') else line for line in printed] == ['again errno 2', 'refused 4', 'refused 3',
          'new entry 10000000000 dir 755 0 0'], f'rows that are sound: {printed}')
    clients, nexts = sessions_of(rows_of_sessions(path))
    wants(nexts == {0: 2 * FIRST, 1: 2 * FIRST, 15: 17 * FIRST}, f'the next numbers are {nexts}')
    wants(clients == TOLD | {last: (1 << 63, {last: 'errno 2'}), 3: (2, {2: 'entry 10000000000 dir 755 0 0'})}, f'the sessions are {clients}')


def older_file(program, folder):
    """A file without the table opens with no session, and has the table from its first flush on."""
    path = cleared(program, folder)
    base = sqlite3.connect(path)
    base.execute('DROP TABLE session_map')
    base.commit()
    base.close()
    printed = went(program, path, ['req 0 1 5 5 lookup 10000000000 a', 'create 1 c 644', 'flush'], '--ask')
    wants(printed == ['reply 1 5 0 new entry 10000000001 file 644 0 0', 'reply 0 1 1 new entry 10000000003 file 644 0 0', 'flushed'], f'an older file: {printed}')
    rows = rows_of_sessions(path)
    wants(sessions_of(rows) == ({0: (1, {1: 'entry 10000000003 file 644 0 0'}), 1: (5, {5: 'entry 10000000001 file 644 0 0'})}, {0: FIRST + 4}),
          f'behind it the sessions are {rows}')


def absent_ranks(program, folder):
    """Numbers that ranks gave, and names that had them were removed, aren't given again, also where a run without these ranks comes between."""
    path = os.path.join(folder, 'ranks')
    steps = ['freeze', 'prep', 'send', 'import', 'finish']
    hand_over = {rank: [f'export dir 0 {FIRST + rank - 1:x} * {rank}', *(f'export {step} {FIRST + rank - 1:x} *' for step in steps)] for rank in (1, 2, 3)}
    script = [f'mkdir 1 d{rank} 755' for rank in (1, 2, 3)] + sum(hand_over.values(), [])
    script += [line for rank in (1, 2, 3) for k in range(rank) for line in (f'create {FIRST + rank - 1:x} f{k} 644', f'unlink {FIRST + rank - 1:x} f{k}')]
    printed = went(program, path, script, '--ask', '--ranks', '4')
    wants(not any('refused' in line for line in printed), f'four ranks print {printed}')
    nexts = {0: FIRST + 3, 1: 2 * FIRST + 1, 2: 3 * FIRST + 2, 3: 4 * FIRST + 3}
    # client 0 made three directories and six files, each of which it took away; of these 15 requests the last is kept
    wants(sessions_of(rows_of_sessions(path)) == ({0: (15, {15: 'done'})}, nexts), f'behind four ranks the next numbers are {sessions_of(rows_of_sessions(path))}')
    printed = went(program, path, [f'create {FIRST + 1:x} alone 644', 'flush', 'unlink %x alone' % (FIRST + 1)], '--ask', '--ranks', '1')
    wants(printed[0].split()[6] == f'{FIRST + 3:x}', f'one rank prints {printed}')
    nexts[0] += 1
    wants(sessions_of(rows_of_sessions(path)) == ({0: (17, {17: 'done'})}, nexts), f'behind one rank the next numbers are {sessions_of(rows_of_sessions(path))}')
    for rank in (1, 2, 3):
        printed = went(program, path, [*hand_over[rank], f'create {FIRST + rank - 1:x} later 644'], '--ask', '--ranks', '4')
        wants(printed[-1].split()[6] == f'{nexts[rank]:x}', f'rank {rank} prints {printed}')
        last, nexts[rank] = f'entry {nexts[rank]:x} file 644 0 0', nexts[rank] + 1
        wants(sessions_of(rows_of_sessions(path)) == ({0: (17 + rank, {17 + rank: last})}, nexts), f'behind rank {rank} the rows are {rows_of_sessions(path)}')
    wants(log_of(path) is None, 'a log is left')


def has_the_table(program, folder):
    """The file has the table as it is written here, as CREATE TABLE has it, and a run without requests leaves its rows."""
    path = cleared(program, folder)
    before = rows_of_sessions(path)
    printed = went(program, path, ['dirfrag ls 1', 'authority 1 *', 'commit 0 1 *', 'history', 'flush'])
    wants(printed[-1] == 'flushed' and rows_of_sessions(path) == before, f'a run without requests prints {printed} and changes the rows')
    # one of client 0 alone changes its row, and no other
    went(program, path, ['lookup 1 d', 'flush'])
    after = rows_of_sessions(path)
    wants(session_of(after.pop(key_of(0))) == (2, {2: TOLD[0][1][1]}), 'a look-up of client 0 leaves another session')
    before.pop(key_of(0))
    wants(after == before, 'a look-up of client 0 changes the row of another')
    base = sqlite3.connect(path)
    tables = [sql for sql, in base.execute('SELECT sql FROM sqlite_schema ORDER BY name')]
    base.close()
    wants(tables == sorted(TABLES), f'there are the tables {tables}')
