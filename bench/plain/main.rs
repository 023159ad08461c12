//! What `cephmeta script` does with operations alone, in plain Rust over the standard library's maps: one rank, no store and no
//! fragments. Names and words are checked, each request is kept in a history and each reply in its client's session, whose mark
//! rises and trims it; answers are written together while whole lines are at hand. It prints what the program prints
//! (bench/plain/check), and stands beside its figures.
mod lines;
mod tree;

use lines::Line;
use std::collections::{BTreeMap, HashMap};
use std::io::{self, BufRead, BufReader, BufWriter, Write};
use std::process::ExitCode;
use tree::{Op, Reply, Tree};

#[derive(Default)]
struct Session {
    mark: u64,
    kept: BTreeMap<u64, (usize, Reply)>,
}

struct Server {
    tree: Tree,
    history: Vec<(u64, u64, Op, Reply)>,
    sessions: HashMap<u64, Session>,
}

impl Server {
    /// Applies a request, and keeps it and its reply; its number is the oldest that its client still asks for.
    fn serve(&mut self, client: u64, tid: u64, op: Op) -> (usize, &Reply) {
        let place = self.history.len();
        let reply = self.tree.serve(&op);
        self.history.push((client, tid, op, reply.clone()));
        let session = self.sessions.entry(client).or_default();
        session.mark = session.mark.max(tid);
        while session.kept.first_key_value().is_some_and(|(tid, _)| *tid < session.mark) {
            session.kept.pop_first();
        }
        let (place, reply) = session.kept.entry(tid).or_insert((place, reply));
        (*place, reply)
    }
}

fn main() -> io::Result<ExitCode> {
    let mut server = Server { tree: Tree::new(), history: Vec::new(), sessions: HashMap::new() };
    let mut reader = BufReader::new(io::stdin().lock());
    let mut out = BufWriter::new(io::stdout().lock());
    let (mut tid, mut count) = (0, 0);
    let mut line = Vec::new();
    loop {
        // what was answered is written before the reader waits for more
        if !reader.buffer().contains(&b'\n') {
            out.flush()?;
        }
        line.clear();
        if reader.read_until(b'\n', &mut line)? == 0 {
            return Ok(ExitCode::SUCCESS);
        }
        count += 1;
        match lines::read(line.strip_suffix(b"\n").unwrap_or(&line)) {
            Line::Nothing => {}
            Line::Fault(errno) => writeln!(out, "errno {errno}")?,
            Line::Op(op) => {
                tid += 1;
                let (place, reply) = server.serve(0, tid, op);
                lines::print(&mut out, 0, tid, place, reply)?;
            }
            Line::Bad => {
                out.flush()?;
                eprintln!("line {count}: not a command");
                return Ok(ExitCode::FAILURE);
            }
        }
    }
}
