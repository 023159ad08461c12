"""Jenkins' hash of a name as CephFS takes it (rjenkins); a fragment looks at its low 24 bits."""
import functools

WORD = 0xffffffff


def shifted(word, by):
    return word << by & WORD if by > 0 else word >> -by


def mixed(a, b, c):
    """Jenkins' mix of three words."""
    for first, second, third in ((-13, 8, -13), (-12, 16, -5), (-3, 10, -15)):
        a = ((a - b - c) ^ shifted(c, first)) & WORD
        b = ((b - c - a) ^ shifted(a, second)) & WORD
        c = ((c - a - b) ^ shifted(b, third)) & WORD
    return a, b, c


@functools.lru_cache(None)
def bits_of(name):
    """The 24 bits that decide in which leaf a name lies, as digits."""
    rest = name if isinstance(name, bytes) else name.encode()
    a, b, c, length = 0x9e3779b9, 0x9e3779b9, 0, len(rest)
    while len(rest) >= 12:
        a, b, c = mixed(*(word + int.from_bytes(rest[at:at + 4], 'little') & WORD for word, at in ((a, 0), (b, 4), (c, 8))))
        rest = rest[12:]
    a, b = a + int.from_bytes(rest[:4], 'little') & WORD, b + int.from_bytes(rest[4:8], 'little') & WORD
    c = c + length + (int.from_bytes(rest[8:], 'little') << 8) & WORD
    return f'{mixed(a, b, c)[2] & 0xffffff:024b}'
