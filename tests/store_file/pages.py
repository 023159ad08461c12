"""What the pages of the documentation say of `--store`, run."""
import os
import re
import sqlite3
import subprocess

from formats import wants
from served import went

HERE = os.path.dirname(os.path.abspath(__file__))


def page(name):
    return open(os.path.join(HERE, '../..', name), encoding='utf8').read()


def queries(program, folder):
    """The three queries of docs/SCRIPT.md, over a tree whose answers are told by hand."""
    section = page('docs/SCRIPT.md').split('## `--store FILE`', 1)[1].split('\n## ', 1)[0]
    found = [line.split(';')[0] for line in re.search('```sql\n(.*?)```', section, re.S)[1].splitlines()]
    wants(len(found) == 3, f'docs/SCRIPT.md has the queries {found}')
    path = os.path.join(folder, 'queried')
    went(program, path, ['mkdir 1 d 755', 'create 1 b 644', 'create 1 a 644', 'create 10000000000 c 644', 'mkdir 1 e 755', 'unlink 1 b'])
    base = sqlite3.connect(path)
    answers = [sorted(base.execute(query).fetchall()) for query in found]
    base.close()
    wants(answers == [[('a_head',), ('d_head',), ('e_head',)], [('1.00000000', 3), ('10000000000.00000000', 1)], []],
          f'the queries of docs/SCRIPT.md give {answers}')
    # a pair of no object, which the third one has to find
    base = sqlite3.connect(path)
    base.execute("INSERT INTO omap VALUES ('gone', 'a_head', x'00')")
    wants(base.execute(found[2]).fetchall() == [('gone',)], 'the third query finds no pair of no object')
    base.close()


def words(program, folder):
    """The words by which a FILE is refused stand in docs/SCRIPT.md, each with nothing but a number, a name or the system's words in it."""
    section = re.search("A run whose FILE can't be opened.*?\n\n(.*?)\n\n", page('docs/SCRIPT.md'), re.S)[1]
    told = set(re.findall('`([^`]+)`', ' '.join(line.split('|')[1] for line in section.splitlines()[2:])))
    found = re.findall(r'#\[error\("([^"]+)"\)\]', page('crates/store_file/src/faults.rt'))
    lacking = {it.replace('{0}', 'N') for it in found} - {'N'} - told
    wants(not lacking, f'docs/SCRIPT.md lacks {lacking}')


def session(program, folder):
    """README's session with `--store`: each of its commands prints what stands below it."""
    block = re.search(r"\n\n((?:    .*\n)*    \$ printf 'mkdir 1 d 755.*\n(?:    .*\n)*)", page('README.md'))
    wants(block, 'README.md has no session with --store')
    lines = [line[4:] for line in block[1].splitlines()]
    begins = [k for k, line in enumerate(lines) if line.startswith('$ ')] + [len(lines)]
    wants(begins[0] == 0 and len(begins) == 3, f'README.md has the session {lines}')
    os.symlink(os.path.abspath(program), os.path.join(folder, 'cephmeta'))
    for begin, end in zip(begins, begins[1:]):
        done = subprocess.run(['sh', '-c', lines[begin][2:]], cwd=folder, capture_output=True, text=True)
        wants((done.stdout.splitlines(), done.stderr, done.returncode) == (lines[begin + 1:end], '', 0),
              f'README.md: {lines[begin]} prints {done.stdout}{done.stderr}')
    wants('tree.db' in os.listdir(folder) and 'tree.db-wal' not in os.listdir(folder), f'the session leaves {os.listdir(folder)}')
