"""The bytes of objects: entries, headers of leaves and headers of trees, read and written. Numbers have the least byte first.

    entry, version 2   I 2 kind ino:8 mode:2 size:8 mtime:8 uid:4 gid:4 pin:1 length:2 target
    entry, version 1   I 1 kind ino:8 mode:2 size:8 mtime:8 length:2 target
    header of a leaf   F 1 version:8 files:8 dirs:8
    header of a tree   T 1 leaves:2, then the word of each leaf:4

A kind is 1 (file), 2 (directory) or 3 (link); a pin is a rank, or 255 for none. A leaf's word has the number of its bits in the upper
byte, and the bits from the top of the other 24. A directory of one leaf has no tree.
"""
import collections
import os
import struct
import sys

sys.path.append(os.path.join(os.path.dirname(os.path.abspath(__file__)), '../random_runs'))
from hashes import mixed  # noqa: E402

ROOT = 1
FIRST, PAST = 1 << 40, 17 << 40
KINDS = {1: 'file', 2: 'dir', 3: 'link'}
ENDING = b'_head'

Inode = collections.namedtuple('Inode', 'ino kind mode size mtime uid gid pin target')
Header = collections.namedtuple('Header', 'version files dirs')


class Unsound(Exception):
    """Bytes or rows that no flush writes."""


def wants(holds, what):
    if not holds:
        raise Unsound(what)


def entry_of(value):
    """The inode of an entry's bytes."""
    wants(value[:1] == b'I' and value[1:2] in (b'\1', b'\2'), f'an entry begins with {value[:2]!r}')
    form = struct.Struct('<BQHQQH' if value[1] == 1 else '<BQHQQIIBH')
    wants(len(value) >= 2 + form.size, 'an entry is cut short')
    kind, ino, mode, size, mtime, *owner, length = form.unpack_from(value, 2)
    uid, gid, pin = owner or (0, 0, 255)
    target = value[2 + form.size:]
    wants(kind in KINDS and FIRST <= ino < PAST and mode < 0o10000, f'an entry of kind {kind}, number {ino:x}, mode {mode:o}')
    wants(len(target) == length, f'a target of {len(target)} bytes, said to have {length}')
    wants((0 < length < 4096 and b'\0' not in target) if kind == 3 else length == 0, 'a target of another kind')
    wants(size == (length if kind == 3 else 0) or kind == 1, f'a size of {size}')
    wants(pin == 255 or (kind == 2 and pin < 16), f'a pin of {pin}')
    return Inode(ino, KINDS[kind], mode, size, mtime, uid, gid, None if pin == 255 else pin, target)


def bytes_of(inode, version=2):
    """An entry's bytes."""
    kind = next(kind for kind, name in KINDS.items() if name == inode.kind)
    owner = struct.pack('<IIB', inode.uid, inode.gid, 255 if inode.pin is None else inode.pin) if version == 2 else b''
    front = struct.pack('<BBBQHQQ', ord('I'), version, kind, inode.ino, inode.mode, inode.size, inode.mtime)
    return front + owner + struct.pack('<H', len(inode.target)) + inode.target


def header_of(value):
    """A leaf's header of its bytes."""
    wants(len(value) == 26 and value[:2] == b'F\1', f'a header of {len(value)} bytes that begins with {value[:2]!r}')
    header = Header(*struct.unpack('<QQQ', value[2:]))
    wants(header.version >= 1, 'a header of version 0')
    return header


def header_bytes(files, dirs, version=1):
    return struct.pack('<BBQQQ', ord('F'), 1, version, files, dirs)


def leaves_of(value):
    """The leaves of a tree, each as its bits; they have to cover every hash once."""
    wants(value[:2] == b'T\1' and len(value) >= 4, f'a tree begins with {value[:2]!r}')
    count = int.from_bytes(value[2:4], 'little')
    wants(2 <= count <= 4096 and len(value) == 4 + 4 * count, f'a tree of {count} leaves in {len(value)} bytes')
    words = struct.unpack(f'<{count}I', value[4:])
    leaves = [f'{word & 0xffffff:024b}'[:word >> 24] for word in words]
    wants([word_of(leaf) for leaf in leaves] == list(words), 'a tree with a word that is no leaf\'s')
    begin = 0
    for leaf in leaves:
        wants(word_of(leaf) & 0xffffff == begin, 'a tree with a gap, or with leaves that overlap')
        begin += 1 << 24 - len(leaf)
    wants(begin == 1 << 24, 'a tree with a gap at its end')
    return leaves


def tree_bytes(leaves):
    return struct.pack(f'<BBH{len(leaves)}I', ord('T'), 1, len(leaves), *map(word_of, leaves))


def word_of(leaf):
    return len(leaf) << 24 | int(leaf.ljust(24, '0'), 2)


def object_name(ino, leaf=''):
    return f'{ino:x}.{word_of(leaf):08x}'.encode()


def tree_name(ino):
    return f'{ino:x}.fragtree'.encode()


def bits_of(name):
    """The 24 bits of a name's hash, by which it lies in a leaf (rjenkins, as in tests/random_runs, for any bytes)."""
    def word(k):
        return int.from_bytes(name[k:k + 4], 'little')
    a, b, c, end = 0x9e3779b9, 0x9e3779b9, 0, len(name) // 12 * 12
    for k in range(0, end, 12):
        a, b, c = mixed(*(it & 0xffffffff for it in (a + word(k), b + word(k + 4), c + word(k + 8))))
    last = int.from_bytes(name[end + 8:], 'little') << 8
    a, b, c = mixed(*(it & 0xffffffff for it in (a + word(end), b + word(end + 4), c + len(name) + last)))
    return f'{c & 0xffffff:024b}'
