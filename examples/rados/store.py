"""Store files: a copy of one, what differs between two, and a new one.

A store file is a database of SQLite with a table of objects and one of their pairs. Keys are text for SQLite whatever
their bytes are, so they are read and written here as bytes.
"""
import contextlib
import fcntl
import itertools
import operator
import os
import shutil
import sqlite3

from journal import CHANGE, CHANGE_HEADER, REMOVE, Step
from pool import KEYS, Refused

# the program opens a file with just these texts
TABLES = [
    'CREATE TABLE object (name TEXT NOT NULL PRIMARY KEY, header BLOB NOT NULL) WITHOUT ROWID',
    'CREATE TABLE omap (object TEXT NOT NULL, key TEXT NOT NULL, value BLOB NOT NULL, PRIMARY KEY (object, key)) '
    'WITHOUT ROWID',
    # what clients were told: of the file alone, which no push brings to a pool
    'CREATE TABLE session_map (key BLOB NOT NULL PRIMARY KEY, value BLOB NOT NULL) WITHOUT ROWID',
]
# the bytes of a database that SQLite locks: who reads shares them, a running program has them for itself
SHARED_FIRST, SHARED_SIZE = 0x40000002, 510
# bytes a write operation, rows a statement, and KB of a database that are kept in memory while it is made
BYTES, ROWS, CACHE = 4 << 20, 100, 65536

GONE_OBJECTS = '''SELECT o.name FROM old.object o
    WHERE NOT EXISTS (SELECT 1 FROM object n WHERE n.name = o.name) ORDER BY o.name'''
CHANGED_HEADERS = '''SELECT n.name, n.header FROM object n LEFT JOIN old.object o ON o.name = n.name
    WHERE o.header IS NOT n.header ORDER BY n.name'''
OBJECTS = '''SELECT n.name, o.name IS NULL FROM object n LEFT JOIN old.object o ON o.name = n.name ORDER BY n.name'''
ALL_PAIRS = '''SELECT key, value FROM omap WHERE object = CAST(? AS TEXT) ORDER BY key'''
CHANGED_PAIRS = '''SELECT n.key, n.value FROM omap n
    LEFT JOIN old.omap o ON o.object = n.object AND o.key = n.key
    WHERE n.object = CAST(? AS TEXT) AND o.value IS NOT n.value ORDER BY n.key'''
GONE_PAIRS = '''SELECT o.object, o.key FROM old.omap o
    WHERE EXISTS (SELECT 1 FROM object n WHERE n.name = o.object)
    AND NOT EXISTS (SELECT 1 FROM omap n WHERE n.object = o.object AND n.key = o.key) ORDER BY o.object, o.key'''

INSERT_PAIRS, PAIR = 'INSERT INTO omap VALUES ', '(CAST(?1 AS TEXT), CAST(? AS TEXT), ?)'


@contextlib.contextmanager
def database(path):
    """A connection in which texts are bytes."""
    connection = sqlite3.connect(path, timeout=0, isolation_level=None)
    connection.text_factory = bytes
    try:
        yield connection
    finally:
        connection.close()


def removed(path):
    """Removes a database and what SQLite has beside it, where they are."""
    for end in ('', '-wal', '-shm', '-journal'):
        with contextlib.suppress(FileNotFoundError):
            os.remove(path + end)


def copied(path, copy, running=False):
    """Copies a store's two files. `running` says that the program has it open and writes nothing meanwhile; else it is
    kept from being opened."""
    removed(copy)
    try:
        with open(path, 'rb') as source, open(copy, 'wb') as target:
            if not running:
                fcntl.lockf(source, fcntl.LOCK_SH | fcntl.LOCK_NB, SHARED_SIZE, SHARED_FIRST)
            if os.path.exists(path + '-journal'):
                raise Refused(f'{path} has a rollback journal, open it with sqlite3 first')
            shutil.copyfileobj(source, target, 1 << 20)
            with contextlib.suppress(FileNotFoundError):
                shutil.copyfile(path + '-wal', copy + '-wal')
    except BlockingIOError:
        raise Refused(f'{path} is open in another process; push when that has ended') from None
    except OSError as why:
        raise Refused(f'{why.filename or path}: {why.strerror}') from None


def settled(copy, path, push):
    """Makes a copied store one file, on the disk, that knows of which push it is the tree."""
    try:
        with database(copy) as connection:
            tables = [text.decode() for (text,) in connection.execute('SELECT sql FROM sqlite_master WHERE sql NOT NULL '
                                                                      "AND name NOT LIKE 'pushed' ORDER BY name")]
            # an older store lacks the last one
            if tables not in (TABLES, TABLES[:-1]):
                raise Refused(f'{path} is no store of cephmeta')
            connection.execute('PRAGMA synchronous = OFF')
            # deletes the log after its pages went into the file
            connection.execute('PRAGMA journal_mode = DELETE')
    except sqlite3.DatabaseError as why:
        raise Refused(f'{path} is no store of cephmeta, or damaged ({why})') from None
    noted(copy, push)


def noted(copy, push):
    """Notes in a copy of which push it is the tree, and brings it to the disk."""
    with database(copy) as connection:
        connection.execute('PRAGMA synchronous = OFF')
        connection.execute('PRAGMA journal_mode = OFF')
        connection.execute('BEGIN')
        connection.execute('CREATE TABLE IF NOT EXISTS pushed (push TEXT NOT NULL)')
        connection.execute('DELETE FROM pushed')
        connection.execute('INSERT INTO pushed VALUES (?)', (push,))
        connection.execute('COMMIT')
    on_disk(copy)


def push_of(copy):
    """The push whose tree this copy is, or None where there is no whole copy."""
    if not os.path.exists(copy):
        return None
    try:
        with database(copy) as connection:
            row = connection.execute('SELECT push FROM pushed').fetchone()
            return row and row[0].decode()
    except sqlite3.DatabaseError:
        return None


def new_tables(connection, schema='main'):
    for text in TABLES:
        connection.execute(text.replace('TABLE ', f'TABLE {schema}.', 1) if schema != 'main' else text)


@contextlib.contextmanager
def compared(new, old):
    """A connection to a copy with another one beside it, or nothing beside it where `old` is None."""
    with database(new) as connection:
        connection.execute('ATTACH ? AS old', (old or ':memory:',))
        if old is None:
            new_tables(connection, 'old')
        yield connection


def chunks(rows):
    """The columns of rows, of as many rows as one write operation takes: KEYS, and BYTES of the last column."""
    while taken := list(itertools.islice(rows, KEYS)):
        yield from halved(tuple(zip(*taken)))


def halved(columns):
    count = len(columns[0])
    if count > 1 and sum(map(len, columns[-1])) > BYTES:
        return [part for cut in (slice(0, count // 2), slice(count // 2, count))
                for part in halved([column[cut] for column in columns])]
    return [columns]


def changes(connection):
    """The steps that make the old store the new one. No two are about the same header or key."""
    for (name,) in connection.execute(GONE_OBJECTS):
        yield Step(REMOVE, name, b'', (), (), ())
    headers = dict(connection.execute(CHANGED_HEADERS))

    def change(name, gone, keys, values):
        header = headers.pop(name, None)
        return Step(CHANGE if header is None else CHANGE_HEADER, name, header or b'', gone, keys, values)

    for name, is_new in connection.execute(OBJECTS).fetchall():
        for keys, values in chunks(connection.execute(ALL_PAIRS if is_new else CHANGED_PAIRS, (name,))):
            yield change(name, (), keys, values)
    for name, rows in itertools.groupby(connection.execute(GONE_PAIRS), operator.itemgetter(0)):
        for _, keys in chunks(rows):
            yield change(name, keys, (), ())
    for name in list(headers):
        yield change(name, (), (), ())


def fetched(pool, lease, path, names):
    """Makes a store file of these objects of a pool."""
    removed(path)
    with database(path) as connection:
        # a file that isn't finished is never read
        connection.execute('PRAGMA journal_mode = OFF')
        connection.execute('PRAGMA synchronous = OFF')
        connection.execute(f'PRAGMA cache_size = -{CACHE}')
        new_tables(connection)
        connection.execute('BEGIN')
        for name, header, keys, values in pool.pages(names, lease):
            connection.execute('INSERT OR IGNORE INTO object VALUES (CAST(? AS TEXT), ?)', (name, header))
            for at in range(0, len(keys), ROWS):
                rows = itertools.chain.from_iterable(zip(keys[at:at + ROWS], values[at:at + ROWS]))
                connection.execute(INSERT_PAIRS + ', '.join([PAIR] * min(ROWS, len(keys) - at)), (name, *rows))
        connection.execute('COMMIT')


def on_disk(path):
    """Brings a file to the disk."""
    with open(path, 'rb') as file:
        os.fsync(file.fileno())


def counts(connection):
    """How many objects and pairs a store has."""
    return connection.execute('SELECT (SELECT count(*) FROM object), (SELECT count(*) FROM omap)').fetchone()
