"""Bits of a small file, changed one at a time: it opens with the tree that it had, or it is refused in words."""
import os
import random
import re
import subprocess

from formats import Unsound, wants
from served import PATIENCE, went

NAMES = ['mkdir 1 d 755', 'create 1 a 644 uid 7 gid 8', 'symlink 1 l /x/y', 'create 10000000000 b%ff 600', 'setattr 1 a size 9 mtime 77',
         'setpin 1 d 0', 'mkdir 1 e 700', 'dirfrag split 0 10000000000 * 1']
LOOK = ['readdir 1 - 10', 'readdir 10000000000 - 10', 'readdir 10000000003 - 10', 'lookup 1 d', 'lookup 1 a', 'lookup 1 l', 'readlink 1 l', 'lookup 1 e',
        'lookup 10000000000 b%ff', 'dirfrag ls 10000000000', 'objects']
WORDS = re.compile(r"has a damaged page|is no database|is a database of something else|is cut short|is of version \d+, which this program doesn't know")
FRONT, HEADER, RANDOM = 16, 100, 2000


def small(program, folder):
    """A file of a few names, and what a run over it prints. Its names are told by hand."""
    path = os.path.join(folder, 'small')
    went(program, path, NAMES)
    return path, went(program, path, LOOK)


def page_of(data):
    """The size of a page, which stands in the header."""
    return int.from_bytes(data[16:18], 'big')


def chosen(data, seed):
    """Each bit of the header, and of each page's front, and random ones: places of bits."""
    places = {*range(8 * HEADER)}
    for page in range(0, len(data), page_of(data)):
        places |= {*range(8 * page, 8 * (page + FRONT))}
    used = [at for at, byte in enumerate(data) if byte]
    chance = random.Random(seed)
    for _ in range(RANDOM // 2):
        places |= {chance.randrange(8 * len(data)), 8 * chance.choice(used) + chance.randrange(8)}
    return sorted(places)


def changed(program, folder, part, parts, every=False):
    """Changes bits: this part of them. Gives how many came to what."""
    path, printed = small(program, folder)
    data, counts = bytearray(open(path, 'rb').read()), {}
    wants(len(data) < 9 * page_of(data), f'the small file has {len(data)} bytes')
    places = range(8 * len(data)) if every else chosen(data, 1)
    for place in places[part::parts]:
        other = bytearray(data)
        other[place // 8] ^= 1 << place % 8
        words = came(program, path, other, printed, f'byte {place // 8}, bit {place % 8}')
        counts[words] = counts.get(words, 0) + 1
    return counts


def came(program, path, other, printed, what):
    """What a run over these bytes comes to."""
    with open(path, 'wb') as file:
        file.write(other)
    try:
        run = subprocess.run([program, 'script', '--store', path], input='\n'.join(LOOK).encode(), capture_output=True, timeout=PATIENCE)
    except subprocess.TimeoutExpired:
        raise Unsound(f'{what}: hangs') from None
    told, prefix = run.stderr.decode(), f'cephmeta: {path}: '
    if run.returncode == 0:
        wants((run.stdout.decode().splitlines(), told) == (printed, ''), f'{what}: another tree: {run.stdout.decode()}{told}')
        return 'the same tree'
    wants(run.returncode == 1 and not run.stdout and told.startswith(prefix), f'{what}: status {run.returncode}: {told}')
    words = told[len(prefix):].rstrip('\n')
    wants(WORDS.fullmatch(words), f'{what}: it says {words}')
    with open(path, 'rb') as file:
        wants(file.read() == other, f'{what}: a file that is refused is changed')
    wants(not os.path.exists(path + '-wal'), f'{what}: a log is left beside a file that is refused')
    return re.sub(r'\d+', 'N', words)
