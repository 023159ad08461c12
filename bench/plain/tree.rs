//! The ten operations and `setpin` over one map of names a directory.
use std::collections::{BTreeMap, HashMap};
use std::ops::Bound::{Excluded, Unbounded};

#[derive(Clone)]
pub enum Kind {
    File,
    Dir,
    Link(Vec<u8>),
}

#[derive(Clone, Copy)]
pub struct Birth {
    pub uid: u32,
    pub gid: u32,
}

#[derive(Clone)]
pub struct Inode {
    pub ino: u64,
    pub kind: Kind,
    pub mode: u16,
    pub size: u64,
    pub mtime: u64,
    pub birth: Birth,
    pub pin: Option<u8>,
}

impl Inode {
    fn is_dir(&self) -> bool {
        matches!(self.kind, Kind::Dir)
    }
}

pub struct Attributes {
    pub mode: Option<u16>,
    pub size: Option<u64>,
    pub mtime: Option<u64>,
    pub uid: Option<u32>,
    pub gid: Option<u32>,
}

pub enum Op {
    Lookup { dir: u64, name: Vec<u8> },
    Readdir { dir: u64, after: Option<Vec<u8>>, max: usize },
    Readlink { dir: u64, name: Vec<u8> },
    Make { dir: u64, name: Vec<u8>, kind: Kind, mode: u16, birth: Birth },
    Setattr { dir: u64, name: Vec<u8>, given: Attributes },
    Setpin { dir: u64, name: Vec<u8>, pin: Option<u8> },
    Unlink { dir: u64, name: Vec<u8> },
    Rmdir { dir: u64, name: Vec<u8> },
    Rename { dir: u64, name: Vec<u8>, to: u64, other: Vec<u8> },
}

#[derive(Clone)]
pub enum Reply {
    Entry(Inode),
    Entries(Vec<(Vec<u8>, u64)>, bool),
    Target(Vec<u8>),
    Done,
    Errno(u16),
}

struct Directory {
    parent: u64,
    names: BTreeMap<Vec<u8>, Inode>,
}

pub struct Tree {
    dirs: HashMap<u64, Directory>,
    next: u64,
}

const STALE: u16 = 116;

impl Tree {
    pub fn new() -> Tree {
        Tree { dirs: HashMap::from([(1, Directory { parent: 1, names: BTreeMap::new() })]), next: 1 << 40 }
    }

    fn names(&self, dir: u64) -> Result<&BTreeMap<Vec<u8>, Inode>, u16> {
        self.dirs.get(&dir).map(|it| &it.names).ok_or(STALE)
    }

    fn names_mut(&mut self, dir: u64) -> Result<&mut BTreeMap<Vec<u8>, Inode>, u16> {
        self.dirs.get_mut(&dir).map(|it| &mut it.names).ok_or(STALE)
    }

    pub fn serve(&mut self, op: &Op) -> Reply {
        self.answer(op).unwrap_or_else(Reply::Errno)
    }

    fn answer(&mut self, op: &Op) -> Result<Reply, u16> {
        match op {
            Op::Lookup { dir, name } => self.names(*dir)?.get(name).map(|it| Reply::Entry(it.clone())).ok_or(2),
            Op::Readdir { dir, after, max } => {
                let start = after.as_ref().map_or(Unbounded, Excluded);
                let mut rest = self.names(*dir)?.range::<Vec<u8>, _>((start, Unbounded));
                let list: Vec<_> = rest.by_ref().take(*max).map(|(name, inode)| (name.clone(), inode.ino)).collect();
                Ok(Reply::Entries(list, rest.next().is_some()))
            }
            Op::Readlink { dir, name } => match &self.names(*dir)?.get(name).ok_or(2u16)?.kind {
                Kind::Link(target) => Ok(Reply::Target(target.clone())),
                _ => Err(22),
            },
            Op::Make { dir, name, kind, mode, birth } => self.make(*dir, name, kind, *mode, *birth),
            Op::Setattr { dir, name, given } => {
                let inode = self.names_mut(*dir)?.get_mut(name).ok_or(2u16)?;
                match inode.kind {
                    Kind::Dir if given.size.is_some() => return Err(21),
                    Kind::Link(_) if given.size.is_some() => return Err(22),
                    _ => {}
                }
                inode.mode = given.mode.unwrap_or(inode.mode);
                inode.size = given.size.unwrap_or(inode.size);
                inode.mtime = given.mtime.unwrap_or(inode.mtime);
                inode.birth.uid = given.uid.unwrap_or(inode.birth.uid);
                inode.birth.gid = given.gid.unwrap_or(inode.birth.gid);
                Ok(Reply::Entry(inode.clone()))
            }
            Op::Setpin { dir, name, pin } => {
                let inode = self.names_mut(*dir)?.get_mut(name).ok_or(2u16)?;
                if !inode.is_dir() {
                    return Err(20);
                }
                if pin.is_some_and(|rank| rank > 15) {
                    return Err(22);
                }
                inode.pin = *pin;
                Ok(Reply::Entry(inode.clone()))
            }
            Op::Unlink { dir, name } => {
                let names = self.names_mut(*dir)?;
                if names.get(name).ok_or(2u16)?.is_dir() {
                    return Err(21);
                }
                names.remove(name);
                Ok(Reply::Done)
            }
            Op::Rmdir { dir, name } => {
                let inode = self.names(*dir)?.get(name).ok_or(2u16)?;
                if !inode.is_dir() {
                    return Err(20);
                }
                let ino = inode.ino;
                if !self.names(ino)?.is_empty() {
                    return Err(39);
                }
                self.names_mut(*dir)?.remove(name);
                self.dirs.remove(&ino);
                Ok(Reply::Done)
            }
            Op::Rename { dir, name, to, other } => self.rename(*dir, name, *to, other),
        }
    }

    fn make(&mut self, dir: u64, name: &[u8], kind: &Kind, mode: u16, birth: Birth) -> Result<Reply, u16> {
        let ino = self.next;
        let names = self.names_mut(dir)?;
        if names.contains_key(name) {
            return Err(17);
        }
        let size = if let Kind::Link(target) = kind { target.len() as u64 } else { 0 };
        let inode = Inode { ino, kind: kind.clone(), mode, size, mtime: 0, birth, pin: None };
        names.insert(name.to_vec(), inode.clone());
        if inode.is_dir() {
            self.dirs.insert(ino, Directory { parent: dir, names: BTreeMap::new() });
        }
        self.next += 1;
        Ok(Reply::Entry(inode))
    }

    /// Whether a directory is the other, or above it.
    fn leads_to(&self, dir: u64, mut below: u64) -> bool {
        while below != dir && below != 1 {
            below = self.dirs[&below].parent;
        }
        below == dir
    }

    fn rename(&mut self, dir: u64, name: &Vec<u8>, to: u64, other: &Vec<u8>) -> Result<Reply, u16> {
        let (source, goal) = (self.names(dir)?, self.names(to)?);
        let inode = source.get(name).ok_or(2u16)?;
        if (dir, name) == (to, other) {
            return Ok(Reply::Done);
        }
        let moved = inode.is_dir().then_some(inode.ino);
        if moved.is_some_and(|ino| self.leads_to(ino, to)) {
            return Err(22);
        }
        let replaced = match goal.get(other) {
            Some(target) if moved.is_some() && !target.is_dir() => return Err(20),
            Some(target) if moved.is_none() && target.is_dir() => return Err(21),
            Some(target) if target.is_dir() && !self.names(target.ino)?.is_empty() => return Err(39),
            Some(target) => target.is_dir().then_some(target.ino),
            None => None,
        };
        let Some(inode) = self.names_mut(dir)?.remove(name) else { return Err(2) };
        self.names_mut(to)?.insert(other.clone(), inode);
        if let Some(row) = moved.and_then(|ino| self.dirs.get_mut(&ino)) {
            row.parent = to;
        }
        replaced.map(|ino| self.dirs.remove(&ino));
        Ok(Reply::Done)
    }
}
