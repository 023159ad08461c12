"""Store files as the tests make, change and read them: by the program, and by sqlite3."""
import os
import re
import shutil
import sqlite3
import subprocess
import tempfile


def spelled(word):
    """A name as a script has it."""
    return ''.join(chr(b) if chr(b).isalnum() and b < 128 or b in b'_.' else f'%{b:02x}' for b in word)


def meant(word):
    """The bytes that a word of a script's line stands for."""
    return re.sub(rb'%([0-9a-f]{2})', lambda it: bytes([int(it[1], 16)]), word.encode())


class Store:
    """A store file and the program that serves it."""

    def __init__(self, program, path):
        self.program, self.path = program, path
        self.folders, self.made = {0x1: []}, 0

    def lines(self, script):
        """What a script prints, line by line."""
        ran = subprocess.run([self.program, 'script', '--store', self.path], input='\n'.join(script) + '\n',
                             capture_output=True, text=True)
        assert (ran.returncode, ran.stderr) == (0, ''), ran.stderr
        return ran.stdout.splitlines()

    def flushed(self, script):
        """Runs a script and flushes; gives the numbers of the entries that it made, in order."""
        *printed, last = self.lines([*script, 'flush'])
        assert last == 'flushed', last
        return [int(line.split()[6], 16) if ' new entry ' in line else None for line in printed]

    def mkdirs(self, count, parent=0x1):
        names = [b'd%d' % (self.made + k) for k in range(count)]
        self.made += count
        numbers = self.flushed([f'mkdir {parent:x} {spelled(name)} 755' for name in names])
        self.folders.update((number, []) for number in numbers)
        return numbers

    def change(self, random, creates, removes, renames=0, alters=0):
        """Random changes in the directories, and a flush."""
        script, folders = [], list(self.folders)
        for _ in range(creates):
            folder, name = random.choice(folders), b'f%d%s' % (self.made, random.choice((b'', b' x', b'\xff\xfe', b'\xc3\xa9')))
            self.made += 1
            self.folders[folder].append(name)
            script.append(f'create {folder:x} {spelled(name)} 644')
        full = [folder for folder in folders if self.folders[folder]]
        for kind in ['unlink'] * removes + ['rename'] * renames + ['setattr'] * alters:
            folder = random.choice([folder for folder in full if self.folders[folder]])
            names = self.folders[folder]
            k = random.randrange(len(names))
            at = f'{folder:x} {spelled(names[k])}'
            if kind == 'unlink':
                script.append(f'unlink {at}')
                names[k:] = names[k + 1:]
            elif kind == 'rename':
                to, name = random.choice(folders), b'r%d' % self.made
                self.made += 1
                script.append(f'rename {at} {to:x} {spelled(name)}')
                names[k:] = names[k + 1:]
                self.folders[to].append(name)
            else:
                script.append(f'setattr {at} size {random.randrange(1 << 40)}')
        self.flushed(script)

    def tree(self):
        """Each name of the tree with what a lookup answers, walked from the root."""
        served = subprocess.Popen([self.program, 'script', '--store', self.path], stdin=subprocess.PIPE, stdout=subprocess.PIPE,
                                  text=True)
        with served:
            found, level = [], [0x1]
            while level:
                entries = [entry for number in level for entry in read_all(served, number)]
                answers = asked(served, [f'lookup {number:x} {name}' for number, name in entries])
                found += [(number, name, answer) for (number, name), answer in zip(entries, answers)]
                level = [int(answer.split()[1], 16) for answer in answers if answer.split()[2] == 'dir']
            served.stdin.close()
        return sorted(found)

    def rows(self):
        """All rows of the store's tables, as sqlite3 reads them from a copy."""
        with tempfile.TemporaryDirectory() as folder:
            copy = os.path.join(folder, 'copy')
            for end in ('', '-wal'):
                if os.path.exists(self.path + end):
                    shutil.copyfile(self.path + end, copy + end)
            connection = sqlite3.connect(copy)
            connection.text_factory = bytes
            rows = (list(connection.execute('SELECT name, header FROM object ORDER BY name')),
                    list(connection.execute('SELECT object, key, value FROM omap ORDER BY object, key')))
            connection.close()
        return rows

    def objects(self):
        """Each object's name with its keys, or None for a directory's tree, as the script tells them."""
        names = self.lines(['objects'])[0].split()[2:]
        told = [line.split() for line in self.lines([f'object {name}' for name in names])]
        return {name: [meant(key) for key in words[4:]] if words[0] == 'frag' else None for name, words in zip(names, told)}


def asked(served, script):
    """The answers to requests of a program that runs: so many at a time as its output has room for."""
    answers = []
    for k in range(0, len(script), 100):
        part = script[k:k + 100]
        served.stdin.write('\n'.join(part) + '\n')
        served.stdin.flush()
        answers += [served.stdout.readline().split(' ', 5)[5].rstrip('\n') for _ in part]
    return answers


def read_all(served, number):
    """The names in a directory."""
    names, after, more = [], '-', True
    while more:
        words = asked(served, [f'readdir {number:x} {after} 1024'])[0].split()
        names += [word.split(':')[0] for word in words[3:]]
        more = words[2] == 'more'
        after = names[-1] if names else '-'
    return [(number, name) for name in names]
