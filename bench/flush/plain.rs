// WHAT DIRS NAMES: the same records by hand: a tree of so many directories of so many files, written to one ordered map of pairs for each
// directory where WHAT is `flush`, `copy` or `mount`, copied, and read back into a tree. Prints how many records the last tree has.
use std::collections::{BTreeMap, HashSet};

#[derive(Clone)]
struct Inode {
    ino: u64,
    kind: u8,
    mode: u16,
    size: u64,
    mtime: u64,
}

struct Object {
    header: Vec<u8>,
    pairs: BTreeMap<Vec<u8>, Vec<u8>>,
}

type Tree = BTreeMap<(u64, Vec<u8>), Inode>;
type Store = BTreeMap<String, Object>;

fn record(inode: &Inode) -> Vec<u8> {
    let mut bytes = vec![1, inode.kind];
    bytes.extend(inode.ino.to_le_bytes());
    bytes.extend(inode.mode.to_le_bytes());
    bytes.extend(inode.size.to_le_bytes());
    bytes.extend(inode.mtime.to_le_bytes());
    bytes
}

fn inode(bytes: &[u8]) -> Option<Inode> {
    if bytes.len() != 28 || bytes[0] != 1 {
        return None;
    }
    let number = |at: usize| Some(u64::from_le_bytes(bytes[at..at + 8].try_into().ok()?));
    Some(Inode {
        kind: bytes[1],
        ino: number(2)?,
        mode: u16::from_le_bytes([bytes[10], bytes[11]]),
        size: number(12)?,
        mtime: number(20)?,
    })
}

fn made(dirs: u64, names: u64) -> Tree {
    let mut tree = Tree::new();
    let mut next = 1 << 40;
    let mut put = |dir: u64, number: u64, kind: u8| {
        let ino = next;
        next += 1;
        tree.insert((dir, format!("name{number}").into_bytes()), Inode { ino, kind, mode: 0o644, size: 0, mtime: 0 });
        ino
    };
    for dir in 0..dirs {
        let home = put(1, dir, 1);
        for number in 0..names {
            put(home, number, 0);
        }
    }
    tree
}

fn flush(tree: &Tree) -> Store {
    let mut store = Store::new();
    for ((dir, name), inode) in tree {
        let object = store.entry(format!("{dir:x}.00000000")).or_insert_with(|| Object { header: vec![0; 24], pairs: BTreeMap::new() });
        object.header[inode.kind as usize] += 1;
        let mut key = name.clone();
        key.extend(b"_head");
        object.pairs.insert(key, record(inode));
        if inode.kind == 1 {
            store.insert(format!("{:x}.00000000", inode.ino), Object { header: vec![0; 24], pairs: BTreeMap::new() });
        }
    }
    store
}

fn mount(store: &Store) -> Option<Tree> {
    let mut tree = Tree::new();
    let mut met = HashSet::new();
    let mut queue = vec![1];
    let mut next = 0;
    while next < queue.len() {
        let dir = queue[next];
        next += 1;
        for (key, bytes) in &store.get(&format!("{dir:x}.00000000"))?.pairs {
            let name = key.strip_suffix(b"_head".as_slice())?.to_vec();
            let inode = inode(bytes)?;
            if !met.insert(inode.ino) {
                return None;
            }
            if inode.kind == 1 {
                queue.push(inode.ino);
            }
            tree.insert((dir, name), inode);
        }
    }
    Some(tree)
}

fn main() {
    let args: Vec<String> = std::env::args().collect();
    let (what, dirs, names) = (args[1].as_str(), args[2].parse().unwrap(), args[3].parse().unwrap());
    let tree = made(dirs, names);
    let mut count = tree.len();
    if what != "make" {
        let store = flush(&tree);
        count = store.len();
        if what == "mount" {
            count = mount(&store).unwrap().len();
        }
    }
    println!("{count}");
}
