"""A pool that has the objects of a store: its head, its lock, and its objects page by page.

The object `cephmeta.head` tells which push the pool has, and how far one that is under way has come. Its data is a text
of JSON. The objects `cephmeta.push.ID.K` are the parts of the push that is under way. All others are objects of the
store, by their own names.
"""
import collections
import contextlib
import errno
import json
import os
import re
import socket
import threading
import time

from librados import MOST, Cluster, Objects, Page, RadosError, Write

HEAD = b'cephmeta.head'
LOCK = b'cephmeta'
FORM = 'cephmeta-rados 1'
OF_STORE = re.compile(rb'[0-9a-f]+\.([0-9a-f]{8}|fragtree)')
OWN = re.compile(rb'cephmeta\.(head|push\.[0-9a-f]+\.[0-9]+)')
# keys that a write operation has at most, as a page of pairs
KEYS = MOST
# pages that are read at once
READS = 16


class Refused(Exception):
    """Why a command does not go on, as a sentence."""


class Head:
    """What a pool has, and the push that is under way there."""

    def __init__(self, push='', count=0, stage='', under_way='', sums=(), client='', broken=False):
        # the last push that was finished, and how many were
        self.push, self.count = push, count
        # 'write' while the parts of a push are written, 'apply' once they are all there and until each change is made,
        # 'sweep' while they are removed; else nothing
        self.stage = stage
        # the push under way, the sums of its parts, and the client that began it
        self.under_way, self.sums, self.client = under_way, list(sums), client
        # a part was lost, so that the objects are between two pushes
        self.broken = broken

    def spelled(self):
        return json.dumps({'form': FORM, **vars(self)}).encode()


def head_of(data):
    """The head that these bytes spell."""
    if not data:
        return Head()
    try:
        fields = json.loads(data)
        if fields.pop('form') != FORM:
            raise ValueError
        return Head(**fields)
    except (ValueError, TypeError, KeyError, AttributeError):
        raise Refused('the pool has an object cephmeta.head that is not of this program') from None


class Lease:
    """The lock on a pool's head, renewed by a thread until it is given back. One that is not renewed runs out."""

    def __init__(self, objects, seconds, shared):
        self.objects, self.seconds, self.shared = objects, seconds, shared
        self.cookie = f'{socket.gethostname()}:{os.getpid()}:{os.urandom(4).hex()}'.encode()
        self.over = threading.Event()
        self.lost = None
        self.renewed = time.monotonic()
        objects.lock(HEAD, LOCK, self.cookie, seconds, shared)
        self.thread = threading.Thread(target=self.keep, daemon=True)
        self.thread.start()

    def renew(self):
        asked = time.monotonic()
        self.objects.lock(HEAD, LOCK, self.cookie, self.seconds, self.shared, renew=True)
        self.renewed = asked

    def keep(self):
        while not self.over.wait(self.seconds / 4):
            try:
                self.renew()
            except RadosError as why:
                self.lost = why
                return

    def check(self):
        """Fails where the lock may have run out."""
        if self.lost or time.monotonic() - self.renewed > self.seconds * 0.8:
            raise Refused('the lock of the pool ran out, as the pool did not answer in time or somebody broke it; '
                          'the next push, pull or check finishes what was begun')

    def prove(self):
        """Fails where the lock was not held all the time."""
        self.check()
        try:
            self.renew()
        except RadosError as why:
            self.lost = why
            self.check()

    def end(self):
        self.over.set()
        self.thread.join()
        if not self.lost:
            self.objects.unlock(HEAD, LOCK, self.cookie)


class Pool:
    """A pool or a namespace in it, at a cluster."""

    def __init__(self, cluster, name, namespace=''):
        self.cluster = cluster
        self.told = (f'namespace {namespace} of ' if namespace else '') + f'pool {name}'
        try:
            self.objects = Objects(cluster, name, namespace)
        except RadosError as why:
            if why.number == errno.ENOENT:
                raise Refused(f'there is no pool {name}') from None
            raise

    @contextlib.contextmanager
    def locked(self, seconds, shared=False):
        """Holds the pool's lock. Others that only read may share it."""
        try:
            lease = Lease(self.objects, seconds, shared)
        except RadosError as why:
            if why.number != errno.EBUSY:
                raise
            raise Refused(f'{self.told} is in use by {self.holders()}; a lock of one that is dead runs out') from None
        try:
            yield lease
        finally:
            lease.end()

    def holders(self):
        """Who holds the lock."""
        words = [cookie.decode().split(':') for cookie in self.objects.lockers(HEAD, LOCK)]
        told = [f'process {word[1]} on {word[0]}' if len(word) == 3 else 'another client' for word in words]
        return ', '.join(told) or 'another client'

    def head(self):
        """The head, or None where there isn't one."""
        data = self.objects.data(HEAD)
        return None if data is None else head_of(data)

    def set_head(self, head, lease):
        """Writes the head, which the pool refuses where the lock is not ours any more."""
        lease.check()
        with Write() as write:
            write.only_if_locked(LOCK, lease.cookie)
            write.data(head.spelled())
            try:
                self.objects.write(HEAD, write)
            except RadosError as why:
                if why.number == errno.EBUSY:
                    lease.lost = why
                    lease.check()
                raise

    def listed(self):
        """The names of the store's objects, in order, and of one object of somebody else, or None."""
        names, foreign = [], None
        for name in self.objects.names():
            if OF_STORE.fullmatch(name):
                names.append(name)
            elif not OWN.fullmatch(name):
                foreign = name
        return sorted(names), foreign

    def pages(self, names, lease):
        """Each of these objects in pages: name, header, keys and values. Several are read at once."""
        asked, names = collections.deque(), iter(names)

        def ask(name, after=b''):
            page = Page(name, after)
            return page, self.objects.begin_read(page)

        try:
            while True:
                while len(asked) < READS and (name := next(names, None)) is not None:
                    asked.append(ask(name))
                if not asked:
                    return
                page, completion = asked.popleft()
                completion.wait()
                lease.check()
                header, keys, values, more = page.read()
                if more and keys:
                    asked.appendleft(ask(page.name, keys[-1]))
                yield page.name, header, keys, values
        finally:
            # whatever fails, no read is under way behind this
            for _, completion in asked:
                completion.wait_only()


@contextlib.contextmanager
def opened(pool, namespace='', conf=None, user=None):
    """A pool at the cluster that a configuration names."""
    cluster = Cluster(conf, user)
    try:
        yield Pool(cluster, pool, namespace)
    finally:
        cluster.close()
