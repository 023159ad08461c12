#!/usr/bin/python3
"""A mount whose requests are timed: mounted.py MOUNTPOINT plain, or MOUNTPOINT PROGRAM RANKS. In the end it prints how many requests there were, for how
many seconds the cluster had them, and the seconds of processor time that this process and the cluster's took."""
import os
import resource
import sys
import time

sys.dont_write_bytecode = True
HERE = os.path.dirname(os.path.realpath(__file__))
sys.path[:0] = [HERE, os.path.join(HERE, '../../examples/mount')]
import pyfuse3  # noqa: E402
import trio  # noqa: E402
from cluster import Cluster  # noqa: E402
from filedata import Memory  # noqa: E402
from filesystem import FileSystem  # noqa: E402
from plain import Plain  # noqa: E402
from words import Inode  # noqa: E402


class Timed(FileSystem):
    """Each request of a client is timed around the cluster's part in it."""
    asked = seconds = 0

    def timed(self, request):
        def call(operation):
            begin = time.perf_counter()
            try:
                return request(operation)
            finally:
                self.asked += 1
                self.seconds += time.perf_counter() - begin
        return call


def processor():
    """Seconds of this process, and of those that it has waited for."""
    return [sum(resource.getrusage(who)[:2]) for who in (resource.RUSAGE_SELF, resource.RUSAGE_CHILDREN)]


def main(mountpoint, kind, ranks='1'):
    cluster = Plain() if kind == 'plain' else Cluster(kind, int(ranks))
    files = Timed(cluster, Memory(), Inode(pyfuse3.ROOT_INODE, 0o040000, 0o755, 0, time.time_ns()))
    cluster.request = files.timed(cluster.request)
    pyfuse3.init(files, mountpoint, pyfuse3.default_options | {'fsname=cephmeta', 'default_permissions'})
    print('is mounted', flush=True)
    begin = processor()
    try:
        trio.run(pyfuse3.main)
    finally:
        pyfuse3.close(unmount=True)
        cluster.close()
        print(files.asked, files.seconds, *(end - before for end, before in zip(processor(), begin)), flush=True)


if __name__ == '__main__':
    main(*sys.argv[1:])
