// A plain reader of the same script, with Rust's standard library alone: what the measurement `records` compares with.
// It reads lines of comma-separated fields (no quotes), keeps one graph in a hash map, and answers `edge`.
use std::collections::HashMap;
use std::io::{self, BufRead, Write};

type Key = (u8, u32, u32);

#[derive(Default)]
struct Graph {
    names: HashMap<Vec<u8>, u32>,
    kinds: HashMap<Vec<u8>, u8>,
    edges: HashMap<Key, (i64, u64, u64)>,
    version: u64,
    inserted: u64,
}

fn number(text: &[u8]) -> u64 {
    std::str::from_utf8(text).unwrap().parse().unwrap()
}

impl Graph {
    fn insert(&mut self, kind: &[u8], source: &[u8], target: &[u8], weight: u64, time: u64) {
        let kinds = self.kinds.len() as u8;
        let kind = *self.kinds.entry(kind.to_vec()).or_insert(kinds);
        let names = self.names.len() as u32;
        let source = *self.names.entry(source.to_vec()).or_insert(names);
        let names = self.names.len() as u32;
        let target = *self.names.entry(target.to_vec()).or_insert(names);
        self.edges.insert((kind, source, target), (weight as i64, time, time));
        self.inserted += 1;
    }

    fn edge(&self, slot: u64, ends: [&[u8]; 3], text: &mut Vec<u8>) -> io::Result<()> {
        let [kind, source, target] = ends;
        match (self.kinds.get(kind), self.names.get(source), self.names.get(target)) {
            (Some(kind), Some(source), Some(target)) => match self.edges.get(&(*kind, *source, *target)) {
                Some((weight, first, recent)) => writeln!(text, "edge {slot} {weight} {first} {recent}"),
                None => writeln!(text, "edge {slot} none"),
            },
            _ => writeln!(text, "error NoVertex"),
        }
    }

    /// Does what a record says, and writes its line.
    fn read(&mut self, fields: &[&[u8]], text: &mut Vec<u8>) -> io::Result<()> {
        match fields {
            [b"i", kind, source, target, weight, time] => {
                self.insert(kind, source, target, number(weight), number(time));
                Ok(())
            }
            [b"commit"] => {
                self.version += 1;
                let inserted = std::mem::take(&mut self.inserted);
                writeln!(text, "commit v={} ins={inserted} upd=0 rem=0 abs=0 ovf=0", self.version)
            }
            [b"open", slot] => writeln!(text, "open {} v={}", number(slot), self.version),
            [b"edge", slot, kind, source, target] => self.edge(number(slot), [kind, source, target], text),
            _ => writeln!(text, "error BadCommand"),
        }
    }
}

fn main() -> io::Result<()> {
    let mut graph = Graph::default();
    let stdin = io::stdin();
    let mut reader = io::BufReader::new(stdin.lock());
    let stdout = io::stdout();
    let mut out = stdout.lock();
    let mut line = Vec::new();
    let mut text = Vec::new();
    loop {
        line.clear();
        if reader.read_until(b'\n', &mut line)? == 0 {
            return out.flush();
        }
        while matches!(line.last(), Some(b'\n' | b'\r')) {
            line.pop();
        }
        let fields: Vec<&[u8]> = line.split(|byte| *byte == b',').collect();
        text.clear();
        graph.read(&fields, &mut text)?;
        out.write_all(&text)?;
    }
}
