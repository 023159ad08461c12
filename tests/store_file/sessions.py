"""The rows of the table session_map, read by their formats alone. Numbers have the least byte first, but for a client's key.

    key of a client    client:8             value  mark:8, then of each reply that is kept  number:8 length:4 reply
    key of a rank      rank:1               value  next:8
    reply              1 inode | 2 follows:1 count:8, then of each name  length:1 name inode | 3 length:2 target | 4 | 5 errno:2
    inode              kind:1 ino:8 size:8 mtime:8 uid:4 gid:4 mode:2 pin:2 length:2 target

A pin is a rank and one, or 0 for none.
"""
import struct

from formats import FIRST, KINDS, wants
from served import spelled
from stores import read_by, rows_of, tree_of

INODE = struct.Struct('<BQQQIIHHH')


def rows_of_sessions(path):
    """The rows of a file and its log, from key to value; none where it has no tables."""
    return read_by(path, rows_by)


def left_in(path):
    """The tree of a file, and beside its names the session of each client, at (-1, client)."""
    return tree_of(rows_of(path)) | {(-1, client): session for client, session in sessions_of(rows_of_sessions(path))[0].items()}


def rows_by(base):
    has_table = base.execute("SELECT count(*) FROM sqlite_schema WHERE name = 'session_map'").fetchone()[0]
    return dict(base.execute('SELECT key, value FROM session_map')) if has_table else {}


def sessions_of(rows):
    """Each client's mark and replies, and each rank's next number."""
    clients, nexts = {}, {}
    for key, value in rows.items():
        wants(len(key) in (1, 8), f'a key {key!r}')
        if len(key) == 8:
            clients[int.from_bytes(key, 'big')] = session_of(value)
            continue
        rank, next_number = key[0], int.from_bytes(value, 'little')
        wants(rank < 16 and len(value) == 8, f'a row of rank {rank} with {len(value)} bytes')
        wants(FIRST <= next_number - rank * FIRST <= 2 * FIRST, f'a next number {next_number:x} of rank {rank}')
        nexts[rank] = next_number
    return clients, nexts


def key_of(client):
    return client.to_bytes(8, 'big')


def session_of(value):
    """A client's mark, and the replies that are kept for it, each as a script prints it."""
    mark, replies = int.from_bytes(value[:8], 'little'), {}
    for tid, at, end in replies_in(value):
        wants(tid >= mark and tid > max(replies, default=-1), f'a reply to {tid}, with a mark of {mark}, behind {sorted(replies)}')
        replies[tid] = reply_of(value[at:end])
    return mark, replies


def replies_in(value):
    """The number of each reply in a client's row, and where its bytes begin and end."""
    wants(len(value) >= 8, f'a session of {len(value)} bytes')
    end = 8
    while end < len(value):
        wants(len(value) >= end + 12, 'a session is cut short')
        tid, length = struct.unpack_from('<QI', value, end)
        at, end = end + 12, end + 12 + length
        wants(len(value) >= end, 'a session is cut short')
        yield tid, at, end


def session_bytes(mark, replies):
    """A client's row: `replies` has the bytes of each."""
    return mark.to_bytes(8, 'little') + b''.join(struct.pack('<QI', tid, len(reply)) + reply for tid, reply in replies)


def reply_of(value):
    kind, rest = value[:1], value[1:]
    if kind == b'\1':
        inode, rest = inode_of(rest)
        answer = f'entry {inode}'
    elif kind == b'\2':
        answer, rest = entries_of(rest)
    elif kind == b'\3':
        length = 2 + int.from_bytes(rest[:2], 'little')
        answer, rest = f'target {spelled(rest[2:length])}', rest[length:]
    elif kind == b'\4':
        answer = 'done'
    else:
        wants(kind == b'\5' and len(rest) == 2, f'a reply begins with {value[:2]!r}')
        answer, rest = f'errno {int.from_bytes(rest, "little")}', b''
    wants(not rest, f'{len(rest)} bytes behind a reply')
    return answer


def entries_of(value):
    """Names that are listed, and the bytes behind them."""
    follows, count = struct.unpack_from('<BQ', value)
    wants(follows < 2, f'whether names follow is {follows}')
    words, rest = ['entries', str(count), 'more' if follows else 'end'], value[9:]
    for _ in range(count):
        end = 1 + rest[0]
        name = spelled(rest[1:end])
        inode, rest = inode_of(rest[end:])
        words.append(f'{name}:{inode.split()[0]}')
    return ' '.join(words), rest


def inode_of(value):
    """An inode, and the bytes behind it."""
    wants(len(value) >= INODE.size and value[0] in KINDS, f'an inode begins with {value[:1]!r}')
    kind, ino, size, mtime, uid, gid, mode, pin, length = INODE.unpack_from(value)
    owner, pinned = f' owner {uid} {gid}' if uid or gid else '', f' pin {pin - 1}' if pin else ''
    return f'{ino:x} {KINDS[kind]} {mode:o} {size} {mtime}{owner}{pinned}', value[INODE.size + length:]
