"""Pushes each flush of a store that a running program has open, for whoever talks to that program.

The program has its file for itself, so a push reads a copy. The copy is taken between the program's answer `flushed` and
the next request, while nothing is written; a process of its own pushes it, so that a pool which is slow or away holds up
nobody. Of the flushes that come meanwhile the last one is pushed.
"""
import os
import subprocess
import sys
import threading

import store

CLIENT = os.path.join(os.path.dirname(os.path.abspath(__file__)), 'cephmeta-rados')


def to_standard_error(line):
    print(line, file=sys.stderr)


class Background:
    """The pushes of one store to one pool. `say` gets a line where a push is refused."""

    def __init__(self, path, pool, namespace='', conf=None, patience=60, say=to_standard_error):
        self.path, self.pool, self.patience, self.say = path, pool, patience, say
        self.words = ['--namespace', namespace, *(['--conf', conf] if conf else [])]
        # the copy that waits to be pushed, and the one that is being pushed: numbers of two files
        self.waiting, self.running, self.over = None, None, False
        self.change = threading.Condition()
        self.thread = threading.Thread(target=self.push_each, daemon=True)
        self.thread.start()

    def copy(self, number):
        return f'{self.path}.flushed{number}'

    def flushed(self):
        """Has the store pushed as it is now. To be called when the program has answered `flushed`, before it is asked more.
        """
        with self.change:
            number = 0 if self.running == 1 else 1
            self.waiting = None
            try:
                store.copied(self.path, self.copy(number), running=True)
            except store.Refused as why:
                # the next one brings it too, or the last one
                store.removed(self.copy(number))
                self.say(f'{why}: this flush is not in pool {self.pool} yet')
                return
            self.waiting = number
            self.change.notify()

    def push_each(self):
        while True:
            with self.change:
                self.change.wait_for(lambda: self.over or self.waiting is not None)
                if self.over:
                    return
                self.running, self.waiting = self.waiting, None
            went = self.client('push', self.copy(self.running), self.pool, '--copy-of', self.path, *self.words)[0] == 0
            with self.change:
                store.removed(self.copy(self.running))
                self.running = None
            if not went:
                self.say(f'{self.path}: this flush is not in pool {self.pool} yet')

    def client(self, *words, patience=None):
        """Runs a command of the client, and tells what it says; the status, and what it prints."""
        ran = subprocess.run([sys.executable, CLIENT, *words], capture_output=True, text=True, timeout=patience)
        if ran.stderr:
            self.say(ran.stderr.rstrip('\n'))
        return ran.returncode, ran.stdout.strip()

    def ended(self):
        """Pushes what is lacking, once the program has ended. A sentence where the pool still lacks something, else None."""
        with self.change:
            self.over = True
            self.change.notify()
        self.thread.join(self.patience)
        try:
            self.client('push', self.path, self.pool, *self.words, patience=self.patience)
        except subprocess.TimeoutExpired:
            self.say(f'{self.path}: pool {self.pool} did not answer within {self.patience} s')
        for number in (0, 1):
            store.removed(self.copy(number))
        status, told = self.client('unpushed', self.path, self.pool, *self.words)
        return told or f'{self.path}: what pool {self.pool} lacks is not known' if status else None
