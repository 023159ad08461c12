"""The words of a script's lines: names as they are written, answers as they are read."""
import dataclasses
import stat
import urllib.parse

KINDS = {'file': stat.S_IFREG, 'dir': stat.S_IFDIR, 'link': stat.S_IFLNK}
# the visible bytes of ASCII stand for themselves, but for the one that begins an escape
PLAIN = bytes(byte for byte in range(0x21, 0x7f) if byte != ord('%'))


def escaped(name):
    """A name or a target, as a line has it. A `-` alone would be no name where a listing's last name stands."""
    return '%2d' if name == b'-' else urllib.parse.quote(name, safe=PLAIN)


def unescaped(word):
    return urllib.parse.unquote_to_bytes(word)


@dataclasses.dataclass
class Inode:
    """What the cluster says of a file, a directory or a link."""
    number: int
    kind: int
    mode: int
    size: int
    mtime: int
    uid: int = 0
    gid: int = 0


def inode_of(words):
    """The inode that an answer tells: `entry INO KIND MODE SIZE MTIME`, then the owner where it isn't root."""
    _, number, kind, mode, size, mtime, *rest = words
    uid, gid = rest[1:3] if rest[:1] == ['owner'] else (0, 0)
    return Inode(int(number, 16), KINDS[kind], int(mode, 8), int(size), int(mtime), int(uid), int(gid))


def page_of(words):
    """The names that an answer lists, with whether further names follow: `entries K more NAME:INO ..`."""
    _, _, follows, *entries = words
    return [unescaped(entry.rsplit(':', 1)[0]) for entry in entries], follows == 'more'
