"""A Ceph cluster of one monitor and one OSD on loopback, in a folder of its own, without authentication.

It ends with the block that made it; its processes end with the process that made it, whatever ends that.
"""
import ctypes
import json
import os
import shutil
import signal
import socket
import subprocess
import tempfile
import time
import uuid

COMMANDS = ('ceph-mon', 'ceph-osd', 'monmaptool', 'rados', 'ceph')
CONF = '''[global]
fsid = {fsid}
mon_host = [v2:127.0.0.1:{port}]
public_addr = 127.0.0.1
cluster_addr = 127.0.0.1
auth_cluster_required = none
auth_service_required = none
auth_client_required = none
keyring =
ms_bind_msgr1 = false
run_dir = {folder}
log_file = {folder}/$name.log
mon_data = {folder}/mon
osd_data = {folder}/osd
osd_objectstore = {kind}
bluestore_block_size = 1073741824
osd_pool_default_size = 1
osd_pool_default_min_size = 1
osd_pool_default_pg_autoscale_mode = off
osd_crush_chooseleaf_type = 0
mon_allow_pool_size_one = true
mon_allow_pool_delete = true
paxos_propose_interval = 0.05
[client]
admin_socket =
'''


def lacking():
    """What a cluster needs and isn't there, as words, or nothing."""
    missing = [command for command in COMMANDS if not shutil.which(command)]
    try:
        import rados  # noqa: F401
    except ImportError:
        missing.append('python3-rados')
    return ', '.join(missing)


def ends_with_parent():
    """In a child: it is killed when its parent has ended."""
    ctypes.CDLL(None).prctl(1, signal.SIGKILL)


def free_port():
    with socket.socket() as taken:
        taken.bind(('127.0.0.1', 0))
        return taken.getsockname()[1]


class Cluster:
    """The cluster, with an OSD that keeps its objects in memory, or of another kind."""
    every = []

    def __init__(self, kind='memstore'):
        self.folder = tempfile.mkdtemp(prefix='rados-')
        self.conf = os.path.join(self.folder, 'ceph.conf')
        self.processes, self.kind, self.client = {}, kind, None
        self.every.append(self)

    def __enter__(self):
        try:
            self.begin()
        except BaseException:
            self.end()
            raise
        return self

    def __exit__(self, *_):
        self.end()

    def run(self, *words):
        return subprocess.run([*words[:1], '-c', self.conf, *words[1:]], check=True, capture_output=True, cwd=self.folder,
                              preexec_fn=ends_with_parent).stdout

    def start(self, name, *words):
        with open(os.path.join(self.folder, name + '.out'), 'ab') as out:
            self.processes[name] = subprocess.Popen([*words[:1], '-c', self.conf, *words[1:], '-f'], stdout=out, stderr=out,
                                                    stdin=subprocess.DEVNULL, preexec_fn=ends_with_parent)

    def begin(self):
        import rados
        fsid, port, monmap = str(uuid.uuid4()), free_port(), os.path.join(self.folder, 'monmap')
        with open(self.conf, 'w') as conf:
            conf.write(CONF.format(fsid=fsid, port=port, folder=self.folder, kind=self.kind))
        for name in ('mon', 'osd'):
            os.mkdir(os.path.join(self.folder, name))
        self.run('monmaptool', '--create', '--fsid', fsid, '--addv', 'a', f'[v2:127.0.0.1:{port}]', monmap)
        self.run('ceph-mon', '--mkfs', '-i', 'a', '--monmap', monmap)
        self.start('mon', 'ceph-mon', '-i', 'a')
        self.client = rados.Rados(conffile=self.conf)
        self.client.connect(timeout=60)
        osd = str(uuid.uuid4())
        self.ask(prefix='osd new', uuid=osd)
        self.run('ceph-osd', '--mkfs', '-i', '0', '--osd-uuid', osd)
        self.start_osd()
        while not self.ask(prefix='osd dump')['osds'][0]['up']:
            time.sleep(0.05)

    def start_osd(self):
        self.start('osd', 'ceph-osd', '-i', '0')

    def kill_osd(self):
        self.processes['osd'].kill()
        self.processes['osd'].wait()

    def ask(self, **words):
        """Asks the monitor, and gives its answer."""
        number, answer, said = self.client.mon_command(json.dumps({**words, 'format': 'json'}), b'')
        if number:
            raise OSError(-number, f'{words}: {said}')
        return json.loads(answer) if answer.strip() else None

    def new_pool(self, name):
        self.ask(prefix='osd pool create', pool=name, pg_num=8)

    def rados(self, pool, *words, namespace=''):
        """What the `rados` command prints, or a fault where it fails."""
        at = ['-N', namespace] if namespace else []
        return self.run('rados', '-p', pool, *at, *words)

    def counted(self):
        """How many bytes clients wrote to the OSD and read of it, by its own count."""
        told = self.run('ceph', '--admin-daemon', os.path.join(self.folder, 'ceph-osd.0.asok'), 'perf', 'dump', 'osd')
        counts = json.loads(told)['osd']
        return counts['op_in_bytes'], counts['op_out_bytes']

    def end(self):
        for process in self.processes.values():
            process.kill()
            process.wait()
        shutil.rmtree(self.folder, ignore_errors=True)
