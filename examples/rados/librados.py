"""The calls of librados that the client makes, by ctypes.

python3-rados of Ceph 16.2 has no call for an object's omap header, and does not read a key that is not UTF-8, as a
file's name may be. The library has both: keys with their lengths in its C calls, the header in two methods of its C++
classes, whose names carry the version of their binary form, so that another form is a name that isn't there.
"""
import array
import collections
import ctypes
import errno
import itertools
import os
from ctypes import byref, c_char_p, c_int, c_long, c_size_t, c_ubyte, c_uint32, c_uint64, c_void_p

SET_HEADER = '_ZN8librados7v14_2_020ObjectWriteOperation15omap_set_headerERKN4ceph6buffer7v15_2_04listE'
GET_HEADER = '_ZN8librados7v14_2_019ObjectReadOperation15omap_get_headerEPN4ceph6buffer7v15_2_04listEPi'
NEW_LIST = '_ZN4ceph6buffer7v15_2_04list15static_from_memEPcm'
APPEND = '_ZN4ceph6buffer7v15_2_04list6appendEPKcj'
TO_STRING = '_ZNK4ceph6buffer7v15_2_04list6to_strB5cxx11Ev'
COMMON = ['libceph-common.so.2', f'/usr/lib/{os.uname().machine}-linux-gnu/ceph/libceph-common.so.2',
          '/usr/lib64/ceph/libceph-common.so.2']
MUST_RENEW = 2
EXCLUSIVE = 1


class RadosError(Exception):
    """What a call of the library answered."""

    def __init__(self, number, what):
        super().__init__(f'{what}: {os.strerror(number)}')
        self.number = number


class Timeval(ctypes.Structure):
    _fields_ = [('seconds', c_long), ('microseconds', c_long)]


def _library():
    """librados and what it shares with other Ceph programs, or a sentence why not."""
    try:
        rados = ctypes.CDLL('librados.so.2')
    except OSError as why:
        raise RadosError(errno.ENOENT, f'librados.so.2 is missing ({why})') from None
    for path in COMMON:
        try:
            common = ctypes.CDLL(path)
            break
        except OSError:
            continue
    else:
        raise RadosError(errno.ENOENT, 'libceph-common.so.2 is missing')
    missing = [name for library, names in ((rados, (SET_HEADER, GET_HEADER)), (common, (NEW_LIST, APPEND, TO_STRING)))
               for name in names if not hasattr(library, name)]
    if missing:
        raise RadosError(errno.ENOSYS, 'this librados has omap headers in another form')
    return rados, common


def _declared():
    """The library's functions with the types of their arguments."""
    rados, common = _library()
    for function, result, arguments in [
        (rados.rados_create_write_op, c_void_p, []),
        (rados.rados_create_read_op, c_void_p, []),
        (rados.rados_release_write_op, None, [c_void_p]),
        (rados.rados_release_read_op, None, [c_void_p]),
        (rados.rados_write_op_omap_set2, None, [c_void_p, c_void_p, c_void_p, c_void_p, c_void_p, c_size_t]),
        (rados.rados_write_op_omap_rm_keys2, None, [c_void_p, c_void_p, c_void_p, c_size_t]),
        (rados.rados_write_op_remove, None, [c_void_p]),
        (rados.rados_write_op_write_full, None, [c_void_p, c_char_p, c_size_t]),
        (rados.rados_write_op_exec, None, [c_void_p, c_char_p, c_char_p, c_char_p, c_size_t, c_void_p]),
        (rados.rados_write_op_operate2, c_int, [c_void_p, c_void_p, c_char_p, c_void_p, c_int]),
        (rados.rados_aio_write_op_operate, c_int, [c_void_p, c_void_p, c_void_p, c_char_p, c_void_p, c_int]),
        (rados.rados_aio_read_op_operate, c_int, [c_void_p, c_void_p, c_void_p, c_char_p, c_int]),
        (rados.rados_read_op_omap_get_vals2, None,
         [c_void_p, c_char_p, c_char_p, c_uint64, c_void_p, c_void_p, c_void_p]),
        (rados.rados_omap_iter_size, ctypes.c_uint, [c_void_p]),
        (rados.rados_omap_get_end, None, [c_void_p]),
        (rados.rados_read, c_int, [c_void_p, c_char_p, c_char_p, c_size_t, c_uint64]),
        (rados.rados_stat, c_int, [c_void_p, c_char_p, c_void_p, c_void_p]),
        (common[NEW_LIST], None, [c_void_p, c_char_p, c_size_t]),
        (common[APPEND], None, [c_void_p, c_char_p, c_uint32]),
        (common[TO_STRING], None, [c_void_p, c_void_p]),
    ]:
        function.restype, function.argtypes = result, arguments
    for function in (rados.rados_aio_wait_for_complete, rados.rados_aio_get_return_value, rados.rados_aio_release):
        function.restype, function.argtypes = c_int, [c_void_p]
    free = ctypes.CDLL('libstdc++.so.6')._ZdlPv
    free.restype, free.argtypes = None, [c_void_p]
    return rados, common, free


RADOS, COMMON_LIBRARY, FREE = _declared()
# what is called for each pair: with the interpreter's lock held, as both return at once
NEXT_PAIR = ctypes.PyDLL('librados.so.2').rados_omap_get_next2
BYTES_AT = ctypes.pythonapi.PyBytes_FromStringAndSize
BYTES_AT.restype, BYTES_AT.argtypes = ctypes.py_object, [c_void_p, ctypes.c_ssize_t]
# where the pairs of a page are told, so many at most: the address of each key and of each value, then their lengths
MOST = 1000
COLUMNS = [(c_uint64 * MOST)() for _ in range(4)]
# the addresses of the keys as texts that end at a zero
KEYS = (c_char_p * MOST).from_buffer(COLUMNS[0])
PLACES = [[byref(column, 8 * k) for k in range(MOST)] for column in COLUMNS]


def checked(answer, what):
    """An answer that is no error number."""
    if answer < 0:
        raise RadosError(-answer, what)
    return answer


def _list_of(data):
    """A buffer list of C++ with a copy of these bytes. It must not move in memory."""
    made = (c_uint64 * 16)()
    COMMON_LIBRARY[NEW_LIST](made, b'', 0)
    if data:
        COMMON_LIBRARY[APPEND](made, data, len(data))
    return made


def _bytes_of(buffer_list):
    """The bytes of a buffer list, by a string of C++: where it is, its length, and room for a short one."""
    string = (c_uint64 * 4)()
    COMMON_LIBRARY[TO_STRING](string, buffer_list)
    data = ctypes.string_at(string[0], string[1])
    if string[0] != ctypes.addressof(string) + 16:
        FREE(string[0])
    return data


def _as_object(operation):
    """An operation of the C calls as an object of the C++ class: a table of methods, which no call here uses, and the
    operation."""
    return (c_void_p * 2)(None, operation)


class Texts:
    """Byte strings that lie one behind the other in `data`, as the C calls take them: the address of each, and its length.
    """

    def __init__(self, data, at, lengths):
        self.data, self.at, self.lengths = data, at, array.array('Q', lengths)
        begin = ctypes.cast(c_char_p(data), c_void_p).value + at
        self.addresses = array.array('Q', itertools.accumulate(self.lengths, initial=begin))

    def end(self):
        """Where the last one ends in the data."""
        return self.at + self.addresses[-1] - self.addresses[0]

    def __getitem__(self, k):
        begin = self.at + self.addresses[k] - self.addresses[0]
        return self.data[begin:begin + self.lengths[k]]

    def from_number(self, k):
        """The addresses of the addresses and of the lengths, from number k on."""
        return self.addresses.buffer_info()[0] + 8 * k, self.lengths.buffer_info()[0] + 8 * k


class Completion:
    """An operation that is under way."""

    def __init__(self, what):
        self.what = what
        self.handle = c_void_p()
        checked(RADOS.rados_aio_create_completion2(None, None, byref(self.handle)), what)

    def wait_only(self):
        """Waits until the operation has ended, and gives its answer."""
        RADOS.rados_aio_wait_for_complete(self.handle)
        answer = RADOS.rados_aio_get_return_value(self.handle)
        RADOS.rados_aio_release(self.handle)
        return answer

    def wait(self, allowed=0):
        """Waits until the operation has ended; the error number `allowed` is no fault."""
        answer = self.wait_only()
        if answer != -allowed:
            checked(answer, self.what)


class Write:
    """What is to be changed at one object, all at once."""

    def __init__(self):
        self.operation = RADOS.rados_create_write_op()

    def __enter__(self):
        return self

    def __exit__(self, *_):
        RADOS.rados_release_write_op(self.operation)

    def header(self, data):
        RADOS[SET_HEADER](_as_object(self.operation), _list_of(data))

    def pairs(self, texts, keys_at, values_at, count):
        """Sets so many pairs, whose keys and values are the texts from these numbers on."""
        keys, key_lengths = texts.from_number(keys_at)
        values, value_lengths = texts.from_number(values_at)
        RADOS.rados_write_op_omap_set2(self.operation, keys, values, key_lengths, value_lengths, count)

    def without(self, texts, keys_at, count):
        RADOS.rados_write_op_omap_rm_keys2(self.operation, *texts.from_number(keys_at), count)

    def data(self, data):
        RADOS.rados_write_op_write_full(self.operation, data, len(data))

    def gone(self):
        RADOS.rados_write_op_remove(self.operation)

    def only_if_locked(self, lock, cookie):
        """The operation fails where this client does not hold the lock with this cookie: class `lock`, method
        `assert_locked`, whose argument is the lock's name, its kind, the cookie and no tag."""
        def text(word):
            return len(word).to_bytes(4, 'little') + word
        words = text(lock) + bytes([EXCLUSIVE]) + text(cookie) + text(b'')
        argument = bytes([1, 1]) + text(words)
        RADOS.rados_write_op_exec(self.operation, b'lock', b'assert_locked', argument, len(argument), None)


class Page:
    """A read of an object's header and of its first MOST pairs behind a key."""

    def __init__(self, name, after):
        self.name, self.more = name, c_ubyte()
        self.operation = RADOS.rados_create_read_op()
        self.pairs, self.buffer_list = c_void_p(), _list_of(b'')
        self.failed = c_int(), c_int()
        RADOS[GET_HEADER](_as_object(self.operation), self.buffer_list, byref(self.failed[0]))
        RADOS.rados_read_op_omap_get_vals2(self.operation, after, b'', MOST, byref(self.pairs), byref(self.more),
                                           byref(self.failed[1]))

    def read(self):
        """The header, the keys, their values, and whether more follow, once the read has ended. Pages are taken one after
        the other."""
        header, count = _bytes_of(self.buffer_list), RADOS.rados_omap_iter_size(self.pairs)
        collections.deque(map(NEXT_PAIR, itertools.repeat(self.pairs, count), *PLACES), maxlen=0)
        keys, values = KEYS[:count], list(map(BYTES_AT, COLUMNS[1][:count], COLUMNS[3][:count]))
        if list(map(len, keys)) != COLUMNS[2][:count]:
            # some key of somebody else's has a zero in it
            keys = list(map(BYTES_AT, COLUMNS[0][:count], COLUMNS[2][:count]))
        RADOS.rados_omap_get_end(self.pairs)
        RADOS.rados_release_read_op(self.operation)
        return header, keys, values, bool(self.more.value)


class Cluster:
    """A connection to a cluster."""

    def __init__(self, conf=None, user=None):
        self.handle = c_void_p()
        checked(RADOS.rados_create(byref(self.handle), user and user.encode()), 'no client can be made')
        checked(RADOS.rados_conf_read_file(self.handle, conf and os.fsencode(conf)),
                f'the configuration {conf or "of the usual places"} cannot be read')
        checked(RADOS.rados_conf_parse_env(self.handle, None), 'CEPH_ARGS cannot be read')
        checked(RADOS.rados_connect(self.handle), 'the cluster cannot be reached')
        address = c_char_p()
        checked(RADOS.rados_getaddrs(self.handle, byref(address)), 'no address of this client is known')
        self.address = address.value.decode()

    def close(self):
        RADOS.rados_shutdown(self.handle)

    def shut_out(self, address):
        """No operation of the client at this address is taken from now on."""
        checked(RADOS.rados_blocklist_add(self.handle, address.encode(), c_uint32(0)),
                f'the client {address}, whose push broke off, cannot be shut out')
        checked(RADOS.rados_wait_for_latest_osdmap(self.handle), 'the map of the cluster cannot be read')


class Objects:
    """The objects of a pool, or of a namespace in it."""

    def __init__(self, cluster, pool, namespace=''):
        self.handle = c_void_p()
        checked(RADOS.rados_ioctx_create(cluster.handle, os.fsencode(pool), byref(self.handle)), 'no pool')
        RADOS.rados_ioctx_set_namespace(self.handle, os.fsencode(namespace))

    def names(self):
        """The names of all objects."""
        cursor, entry, size = c_void_p(), c_void_p(), c_size_t()
        checked(RADOS.rados_nobjects_list_open(self.handle, byref(cursor)), 'the pool cannot be listed')
        try:
            while True:
                answer = RADOS.rados_nobjects_list_next2(cursor, byref(entry), None, None, byref(size), None, None)
                if answer == -errno.ENOENT:
                    return
                checked(answer, 'the pool cannot be listed')
                yield ctypes.string_at(entry.value, size.value)
        finally:
            RADOS.rados_nobjects_list_close(cursor)

    def write(self, name, write):
        """Makes a change and waits for it."""
        checked(RADOS.rados_write_op_operate2(write.operation, self.handle, name, None, 0),
                f'object {name.decode()} cannot be written')

    def begin_write(self, name, write):
        completion = Completion(f'object {os.fsdecode(name)} cannot be written')
        checked(RADOS.rados_aio_write_op_operate(write.operation, self.handle, completion.handle, name, None, 0),
                completion.what)
        return completion

    def begin_read(self, page):
        completion = Completion(f'object {os.fsdecode(page.name)} cannot be read')
        checked(RADOS.rados_aio_read_op_operate(page.operation, self.handle, completion.handle, page.name, 0),
                completion.what)
        return completion

    def data(self, name):
        """The bytes of an object, or None where it isn't there."""
        size = c_uint64()
        answer = RADOS.rados_stat(self.handle, name, byref(size), None)
        if answer == -errno.ENOENT:
            return None
        checked(answer, f'object {name.decode()} cannot be read')
        room = ctypes.create_string_buffer(size.value + 1)
        length = checked(RADOS.rados_read(self.handle, name, ctypes.cast(room, c_char_p), size.value + 1, 0),
                         f'object {name.decode()} cannot be read')
        return room.raw[:length]

    def lock(self, name, lock, cookie, seconds, shared=False, renew=False):
        """Takes a lock on an object, or renews it, for so many seconds."""
        length = Timeval(int(seconds), int(seconds % 1 * 1000000))
        flags = c_ubyte(MUST_RENEW if renew else 0)
        if shared:
            answer = RADOS.rados_lock_shared(self.handle, name, lock, cookie, b'', b'', byref(length), flags)
        else:
            answer = RADOS.rados_lock_exclusive(self.handle, name, lock, cookie, b'', byref(length), flags)
        checked(answer, f'object {name.decode()} cannot be locked')

    def unlock(self, name, lock, cookie):
        return RADOS.rados_unlock(self.handle, name, lock, cookie)

    def lockers(self, name, lock):
        """The cookies of those who hold a lock on an object."""
        rooms = [ctypes.create_string_buffer(8192) for _ in range(4)]
        sizes = [c_size_t(8192) for _ in rooms]
        arguments = [word for pair in zip(rooms, map(byref, sizes)) for word in pair]
        RADOS.rados_list_lockers.restype = ctypes.c_ssize_t
        held = RADOS.rados_list_lockers(self.handle, name, lock, byref(c_int()), *arguments)
        return rooms[2].raw.split(b'\0')[:held] if held > 0 else []
