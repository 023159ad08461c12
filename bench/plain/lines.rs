//! The lines of a script: read as `cephmeta script` reads them, and answers in its words.
use crate::tree::{Attributes, Birth, Inode, Kind, Op, Reply};
use std::io::{self, Write};

/// What a line is.
pub enum Line {
    Nothing,
    Op(Op),
    /// A name or a target that breaks the rules of names
    Fault(u16),
    Bad,
}

fn number(word: &[u8], base: u64) -> Option<u64> {
    if word.is_empty() || (word.len() > 1 && word[0] == b'0') {
        return None;
    }
    word.iter().try_fold(0u64, |value, byte| {
        let digit = match byte {
            b'0'..=b'9' => byte - b'0',
            b'a'..=b'f' => byte - b'a' + 10,
            _ => return None,
        } as u64;
        (digit < base).then_some(())?;
        value.checked_mul(base)?.checked_add(digit)
    })
}

fn mode(word: &[u8]) -> Option<u16> {
    let octal = |byte: &u8| (b'0'..=b'7').contains(byte);
    (1..=4).contains(&word.len()).then_some(())?;
    word.iter().all(octal).then(|| word.iter().fold(0, |value, byte| value * 8 + (byte - b'0') as u16))
}

/// `%` and two digits stand for a byte.
fn unescaped(word: &[u8]) -> Option<Vec<u8>> {
    let digit = |byte: u8| (byte as char).to_digit(16).map(|it| it as u8);
    let mut bytes = Vec::with_capacity(word.len());
    let mut rest = word.iter();
    while let Some(&byte) = rest.next() {
        bytes.push(if byte == b'%' { digit(*rest.next()?)? * 16 + digit(*rest.next()?)? } else { byte });
    }
    Some(bytes)
}

fn name(bytes: Vec<u8>) -> Result<Vec<u8>, u16> {
    if bytes.len() > 255 {
        return Err(36);
    }
    let broken = bytes.is_empty() || bytes == b"." || bytes == b".." || bytes.iter().any(|byte| matches!(byte, 0 | b'/'));
    if broken { Err(22) } else { Ok(bytes) }
}

fn target(bytes: Vec<u8>) -> Result<Vec<u8>, u16> {
    match bytes.len() {
        0 => Err(2),
        1..=4095 if bytes.contains(&0) => Err(22),
        1..=4095 => Ok(bytes),
        _ => Err(36),
    }
}

/// The word behind a key, if the key comes next.
fn keyed<'a>(words: &mut std::iter::Peekable<impl Iterator<Item = &'a [u8]>>, key: &str) -> Option<Option<&'a [u8]>> {
    match words.next_if(|word| *word == key.as_bytes()) {
        Some(_) => Some(Some(words.next()?)),
        None => Some(None),
    }
}

fn optional<T>(word: Option<&[u8]>, read: impl Fn(&[u8]) -> Option<T>) -> Option<Option<T>> {
    match word {
        Some(word) => Some(Some(read(word)?)),
        None => Some(None),
    }
}

fn id(word: &[u8]) -> Option<u32> {
    number(word, 10)?.try_into().ok()
}

pub fn read(line: &[u8]) -> Line {
    if line.first() == Some(&b'#') {
        return Line::Nothing;
    }
    if line.iter().any(|byte| !(32..=126).contains(byte)) {
        return Line::Bad;
    }
    let mut words = line.split(|byte| *byte == b' ').filter(|word| !word.is_empty());
    match words.next() {
        None => Line::Nothing,
        Some(verb) => match op(verb, words) {
            Some(Ok(op)) => Line::Op(op),
            Some(Err(errno)) => Line::Fault(errno),
            None => Line::Bad,
        },
    }
}

/// None of a line that is no command; an errno of one whose names break their rules.
fn op<'a>(verb: &[u8], words: impl Iterator<Item = &'a [u8]>) -> Option<Result<Op, u16>> {
    let mut words = words.peekable();
    let dir = number(words.next()?, 16)?;
    if verb == b"readdir" {
        let (after, max) = (words.next()?, number(words.next()?, 10)?);
        let after = if after == b"-" { None } else { Some(unescaped(after)?) };
        ((1..=1024).contains(&max) && words.next().is_none()).then_some(())?;
        return Some(after.map(name).transpose().map(|after| Op::Readdir { dir, after, max: max as usize }));
    }
    let first = unescaped(words.next()?)?;
    let made = match verb {
        b"create" | b"mkdir" => Some(mode(words.next()?)?),
        _ => None,
    };
    let second = match verb {
        b"symlink" => Some(unescaped(words.next()?)?),
        _ => None,
    };
    let mut birth = Birth { uid: 0, gid: 0 };
    if made.is_some() || second.is_some() {
        birth.uid = optional(keyed(&mut words, "uid")?, id)?.unwrap_or(0);
        birth.gid = optional(keyed(&mut words, "gid")?, id)?.unwrap_or(0);
    }
    let read = match (verb, made, second) {
        (b"create", Some(mode), _) => name(first).map(|name| Op::Make { dir, name, kind: Kind::File, mode, birth }),
        (b"mkdir", Some(mode), _) => name(first).map(|name| Op::Make { dir, name, kind: Kind::Dir, mode, birth }),
        (b"symlink", _, Some(bytes)) => {
            name(first).and_then(|name| Ok(Op::Make { dir, name, kind: Kind::Link(target(bytes)?), mode: 0o777, birth }))
        }
        (b"setattr", ..) => {
            words.peek()?;
            let given = Attributes {
                mode: optional(keyed(&mut words, "mode")?, mode)?,
                size: optional(keyed(&mut words, "size")?, |word| number(word, 10))?,
                mtime: optional(keyed(&mut words, "mtime")?, |word| number(word, 10))?,
                uid: optional(keyed(&mut words, "uid")?, id)?,
                gid: optional(keyed(&mut words, "gid")?, id)?,
            };
            name(first).map(|name| Op::Setattr { dir, name, given })
        }
        (b"setpin", ..) => {
            let pin = match words.next()? {
                b"-1" => None,
                word => Some(u8::try_from(number(word, 10)?).ok()?),
            };
            name(first).map(|name| Op::Setpin { dir, name, pin })
        }
        (b"rename", ..) => {
            let (to, other) = (number(words.next()?, 16)?, unescaped(words.next()?)?);
            name(first).and_then(|from| Ok(Op::Rename { dir, name: from, to, other: name(other)? }))
        }
        (b"lookup", ..) => name(first).map(|name| Op::Lookup { dir, name }),
        (b"readlink", ..) => name(first).map(|name| Op::Readlink { dir, name }),
        (b"unlink", ..) => name(first).map(|name| Op::Unlink { dir, name }),
        (b"rmdir", ..) => name(first).map(|name| Op::Rmdir { dir, name }),
        _ => return None,
    };
    words.next().is_none().then_some(read)
}

fn escaped(out: &mut impl Write, bytes: &[u8]) -> io::Result<()> {
    for &byte in bytes {
        match byte {
            33..=126 if byte != b'%' => out.write_all(&[byte])?,
            _ => write!(out, "%{byte:02x}")?,
        }
    }
    Ok(())
}

fn entry(out: &mut impl Write, inode: &Inode) -> io::Result<()> {
    let kind = match inode.kind {
        Kind::File => "file",
        Kind::Dir => "dir",
        Kind::Link(_) => "link",
    };
    write!(out, "entry {:x} {kind} {:o} {} {}", inode.ino, inode.mode, inode.size, inode.mtime)?;
    if (inode.birth.uid, inode.birth.gid) != (0, 0) {
        write!(out, " owner {} {}", inode.birth.uid, inode.birth.gid)?;
    }
    inode.pin.map_or(Ok(()), |rank| write!(out, " pin {rank}"))
}

pub fn print(out: &mut impl Write, client: u64, tid: u64, place: usize, reply: &Reply) -> io::Result<()> {
    write!(out, "reply {client} {tid} {place} new ")?;
    match reply {
        Reply::Entry(inode) => entry(out, inode)?,
        Reply::Entries(list, more) => {
            write!(out, "entries {} {}", list.len(), if *more { "more" } else { "end" })?;
            for (name, ino) in list {
                out.write_all(b" ")?;
                escaped(out, name)?;
                write!(out, ":{ino:x}")?;
            }
        }
        Reply::Target(target) => {
            out.write_all(b"target ")?;
            escaped(out, target)?;
        }
        Reply::Done => out.write_all(b"done")?,
        Reply::Errno(errno) => write!(out, "errno {errno}")?,
    }
    out.write_all(b"\n")
}
