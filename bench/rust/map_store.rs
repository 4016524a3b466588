// A plain store of maps in Rust's standard library: what the measurement `compare` compares with. Each source has one hash map,
// from kind and target to the edge, changed in place, so there is one graph and no version of it: `open` and `close` are read and
// answered, and a session's answers are those of the last batch. It reads unquoted records that aren't refused, and has no
// blocks: of a `collect` it writes the command alone.
mod map_graph;

use map_graph::{Change, Counts, Edge, Graph, Key, NONE, Operation, View};
use std::io::{self, BufRead, Write};

fn number(text: &[u8]) -> u64 {
    text.iter().fold(0, |number, digit| number * 10 + u64::from(digit - b'0'))
}

fn weight(text: &[u8]) -> i64 {
    match text.strip_prefix(b"-") {
        Some(digits) => -(number(digits) as i64),
        None => number(text) as i64,
    }
}

#[derive(Default)]
struct Store {
    graph: Graph,
    version: u64,
    pending: Vec<Operation>,
}

impl Store {
    fn commit(&mut self, out: &mut Vec<u8>) -> io::Result<()> {
        let mut counts = Counts::default();
        for operation in self.pending.drain(..) {
            self.graph.apply(&operation, &mut counts);
        }
        self.version += 1;
        let Counts { inserted, updated, removed, absent, overflowed } = counts;
        let version = self.version;
        writeln!(out, "commit v={version} ins={inserted} upd={updated} rem={removed} abs={absent} ovf={overflowed}")
    }

    fn view(&self, kind: &[u8], low: &[u8], high: &[u8]) -> View {
        let kind = (kind != b"*").then(|| self.graph.kinds.numbers[kind]);
        View { kind, window: (number(low), number(high)) }
    }

    fn names(&self) -> impl Iterator<Item = &[u8]> {
        self.graph.names.texts.iter().map(Vec::as_slice)
    }

    fn write_numbers(&self, numbers: &[u32], out: &mut Vec<u8>) -> io::Result<()> {
        for (name, number) in self.names().zip(numbers).filter(|(_, number)| **number != NONE) {
            out.extend_from_slice(name);
            writeln!(out, " {number}")?;
        }
        Ok(())
    }

    fn write_labels(&self, slot: &str, view: &View, out: &mut Vec<u8>) -> io::Result<()> {
        let labels = self.graph.labels(view);
        let parts = (0..).zip(&labels).filter(|(vertex, label)| vertex == *label).count();
        writeln!(out, "comp {slot} parts={parts}")?;
        for (name, label) in self.names().zip(&labels) {
            out.extend_from_slice(name);
            out.push(b' ');
            out.extend_from_slice(&self.graph.names.texts[*label as usize]);
            out.push(b'\n');
        }
        Ok(())
    }

    fn write_degrees(&self, slot: &str, view: &View, out: &mut Vec<u8>) -> io::Result<()> {
        let table = self.graph.degrees(view);
        writeln!(out, "deg {slot} edges={}", table.iter().map(|degrees| degrees.0).sum::<u64>())?;
        for (name, (outward, inward, weight)) in self.names().zip(&table) {
            out.extend_from_slice(name);
            writeln!(out, " {outward} {inward} {weight}")?;
        }
        Ok(())
    }

    fn answer(&mut self, fields: &[&[u8]], out: &mut Vec<u8>) -> io::Result<()> {
        let texts: Vec<&str> = fields.iter().take(2).map(|field| std::str::from_utf8(field).unwrap()).collect();
        match fields {
            [b"open", _] => writeln!(out, "open {} v={}", texts[1], self.version),
            [b"close", _] => writeln!(out, "close {}", texts[1]),
            [b"collect"] => writeln!(out, "collect"),
            [b"bfs", _, source, kind, low, high] => {
                let levels = self.graph.levels(self.graph.names.numbers[*source], &self.view(kind, low, high));
                writeln!(out, "bfs {} reached={}", texts[1], levels.iter().filter(|level| **level != NONE).count())?;
                self.write_numbers(&levels, out)
            }
            [b"comp", _, kind, low, high] => self.write_labels(texts[1], &self.view(kind, low, high), out),
            [b"core", _, kind, low, high] => {
                let cores = self.graph.cores(&self.view(kind, low, high));
                writeln!(out, "core {} max={}", texts[1], cores.iter().max().unwrap_or(&0))?;
                self.write_numbers(&cores, out)
            }
            [b"deg", _, kind, low, high] => self.write_degrees(texts[1], &self.view(kind, low, high), out),
            [b"edge", _, kind, source, target] => {
                let Graph { names, kinds, rows } = &self.graph;
                let key = Key { kind: kinds.numbers[*kind], target: names.numbers[*target] };
                match rows[names.numbers[*source] as usize].get(&key) {
                    Some(Edge { weight, first, recent }) => writeln!(out, "edge {} {weight} {first} {recent}", texts[1]),
                    None => writeln!(out, "edge {} none", texts[1]),
                }
            }
            _ => panic!("a record that this store doesn't know"),
        }
    }

    fn read(&mut self, fields: &[&[u8]], out: &mut Vec<u8>) -> io::Result<()> {
        let (change, kind, source, target) = match fields {
            [b"i", kind, source, target, value, time] => (Change::Set(weight(value), number(time)), kind, source, target),
            [b"a", kind, source, target, value, time] => (Change::Add(weight(value), number(time)), kind, source, target),
            [b"r", kind, source, target] => (Change::Remove, kind, source, target),
            [b"commit"] => return self.commit(out),
            _ => return self.answer(fields, out),
        };
        self.pending.push(Operation { change, kind: kind.to_vec(), source: source.to_vec(), target: target.to_vec() });
        Ok(())
    }
}

fn main() -> io::Result<()> {
    let mut store = Store::default();
    let mut reader = io::stdin().lock();
    let mut writer = io::stdout().lock();
    let (mut line, mut out) = (Vec::new(), Vec::new());
    while reader.read_until(b'\n', &mut line)? != 0 {
        let mut fields: [&[u8]; 6] = [&[]; 6];
        let mut count = 0;
        for field in line.strip_suffix(b"\n").unwrap_or(&line).split(|byte| *byte == b',') {
            fields[count] = field;
            count += 1;
        }
        store.read(&fields[..count], &mut out)?;
        if !out.is_empty() {
            writer.write_all(&out)?;
            writer.flush()?;
            out.clear();
        }
        line.clear();
    }
    Ok(())
}
