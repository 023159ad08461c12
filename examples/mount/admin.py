"""The socket at which an administrator says lines while the file system is mounted, as at `ceph daemon`'s: one line, one answer.

A line is looked at before it is said, since the program ends at one that is no command.
"""
import os
import re
import stat

import trio

from cluster import Anew

# the administrator's lines of docs/SCRIPT.md
LINES = """get subtrees|authority INO FRAG|dirfrag split RANK INO FRAG NB|dirfrag merge RANK INO FRAG|dirfrag ls INO|commit RANK INO FRAG
begin RANK INO FRAG|end NB|drop NB|tree INO|export dir RANK INO FRAG RANK|export freeze INO FRAG|export prep INO FRAG|export send INO FRAG
export import INO FRAG|export finish INO FRAG|export cancel INO FRAG|own RANK|purge|flush|evict RANK|object OBJECT|objects|history"""
WORDS = {'INO': '[1-9a-f][0-9a-f]{0,15}', 'FRAG': r'[01]{0,24}\*', 'RANK': r'(?:\d|[1-9]\d|1\d\d|2[0-4]\d|25[0-5])', 'NB': r'(?:\d|[1-9]\d{0,8})',
         'OBJECT': r'[1-9a-f][0-9a-f]{0,15}\.(?:[01][0-9a-f][0-9a-f]{6}|fragtree)'}
FORMS = re.compile('|'.join(' '.join(WORDS.get(word, word) for word in line.split()) for line in re.split('[|\n]', LINES)))


def said(cluster, line):
    """What a line prints; of another program, where this one is killed meanwhile."""
    try:
        return cluster.say(line) if FORMS.fullmatch(line) else "that is no administrator's line of docs/SCRIPT.md"
    except Anew:
        return said(cluster, line)
    except OSError as error:
        return error.strerror


async def serve(cluster, path):
    """Answers whoever connects, for as long as the file system is mounted."""
    async def answer(stream):
        try:
            line = await stream.receive_some(16384)
            await stream.send_all(said(cluster, line.decode('ascii', 'replace').strip()).encode() + b'\n')
        except trio.BrokenResourceError:
            """Who asked doesn't listen any more."""

    socket = trio.socket.socket(trio.socket.AF_UNIX)
    if os.path.exists(path) and stat.S_ISSOCK(os.stat(path).st_mode):
        os.unlink(path)     # of a mount that was killed
    await socket.bind(path)
    try:
        socket.listen()
        await trio.serve_listeners(answer, [trio.SocketListener(socket)])
    finally:
        os.unlink(path)
