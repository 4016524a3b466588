// Writes a script of records for the measurements: a load, then requests. Arguments: the load (`rmat`, `wide`, `sparse`,
// `hub`, `mixed`, `ordinary`, `chosen`, `empty` or `none`), then pairs of a request and how often it stands. Operations come in
// batches of 4,096, with a collection behind each.
use std::hash::{DefaultHasher, Hasher};
use std::io::{self, BufWriter, StdoutLock, Write};

const OPERATIONS_A_BATCH: u32 = 4_096;
const NAMES: usize = 60_000;
const LAST_TIME: u64 = i64::MAX as u64;

/// A linear congruential generator.
struct Draws(u64);

impl Draws {
    fn below(&mut self, bound: u32) -> u32 {
        self.0 = self.0.wrapping_mul(6_364_136_223_846_793_005).wrapping_add(1_442_695_040_888_963_407);
        (self.0 >> 33) as u32 % bound
    }

    /// An edge of an R-MAT graph of 2^scale vertices: of 100 pairs of bits 57 are 0 and 0, 19 are 0 and 1, 19 are 1 and 0.
    fn rmat_edge(&mut self, scale: u32) -> (u32, u32) {
        (0..scale).fold((0, 0), |(source, target), _| {
            let draw = self.below(100);
            (source * 2 + u32::from(draw >= 76), target * 2 + u32::from((57..76).contains(&draw) || draw >= 95))
        })
    }

    /// The edge of a tree to a vertex that isn't the first, as often from the one before as from any earlier: 1.5 edges a block.
    fn tree_edge(&mut self, target: u32) -> (u32, u32) {
        let follows = self.below(2) == 0;
        (if follows { target - 1 } else { self.below(target) }, target)
    }
}

struct Script {
    out: BufWriter<StdoutLock<'static>>,
    operations: u32,
}

impl Script {
    fn operation(&mut self, record: std::fmt::Arguments) -> io::Result<()> {
        writeln!(self.out, "{record}")?;
        self.operations += 1;
        if self.operations % OPERATIONS_A_BATCH == 0 {
            self.commit()?;
        }
        Ok(())
    }

    fn commit(&mut self) -> io::Result<()> {
        writeln!(self.out, "commit\ncollect")
    }

    /// 14 insertions a vertex between 65,536 vertices that are drawn as R-MAT draws them.
    fn rmat(&mut self) -> io::Result<()> {
        let mut draws = Draws(1);
        for time in 0..14 << 16 {
            let (source, target) = draws.rmat_edge(16);
            self.operation(format_args!("i,link,v{source},v{target},{},{time}", time % 100))?;
        }
        Ok(())
    }

    /// 24 batches of insertions, each from 2,000 sources, between 20,000 vertices.
    fn wide(&mut self) -> io::Result<()> {
        let mut draws = Draws(1);
        for time in 0..24 * OPERATIONS_A_BATCH {
            let source = (time / OPERATIONS_A_BATCH * 2_000 + time * 7 % 2_000) % 20_000;
            self.operation(format_args!("i,link,v{source},v{},1,{time}", draws.below(20_000)))?;
        }
        Ok(())
    }

    /// A tree of 65,536 vertices, of which most have one edge or none.
    fn sparse(&mut self) -> io::Result<()> {
        let mut draws = Draws(1);
        for time in 1..1 << 16 {
            let (source, target) = draws.tree_edge(time);
            self.operation(format_args!("i,link,v{source},v{target},1,{time}"))?;
        }
        self.commit()
    }

    /// 60,000 edges of one source, and then an addition to the weight of each, in another order.
    fn hub(&mut self) -> io::Result<()> {
        for time in 0..60_000u64 {
            self.operation(format_args!("i,link,hub,v{},1,{time}", time * 7_919 % 60_000))?;
        }
        for time in 60_000..120_000u64 {
            self.operation(format_args!("a,link,hub,v{},2,{time}", time * 104_729 % 60_000))?;
        }
        self.commit()
    }

    /// Operations of all three commands and two kinds between 2,048 vertices, some of them on edges that aren't there.
    fn mixed(&mut self) -> io::Result<()> {
        let mut draws = Draws(1);
        for time in 0..200_000 {
            let (source, target) = draws.rmat_edge(11);
            let kind = if target % 3 == 0 { "call" } else { "link" };
            match time % 5 {
                0 => self.operation(format_args!("r,{kind},v{source},v{target}"))?,
                1 => self.operation(format_args!("a,{kind},v{source},v{target},-{},{time}", time % 1_000))?,
                _ => self.operation(format_args!("i,{kind},v{source},v{target},{},{time}", time % 100))?,
            }
        }
        self.commit()
    }

    /// A path through these names.
    fn path(&mut self, names: &[String]) -> io::Result<()> {
        for pair in names.windows(2) {
            self.operation(format_args!("i,link,{},{},1,1", pair[0], pair[1]))?;
        }
        self.commit()
    }

    fn empty(&mut self) -> io::Result<()> {
        (0..65_536).try_for_each(|_| writeln!(self.out, "commit"))
    }

    fn request(&mut self, name: &str) -> io::Result<()> {
        match name {
            "bfs" => writeln!(self.out, "bfs,0,v0,*,0,{LAST_TIME}"),
            "edge" => writeln!(self.out, "edge,0,link,v0,v1"),
            "window" => writeln!(self.out, "deg,0,link,5000,90000"),
            _ => writeln!(self.out, "{name},0,*,0,{LAST_TIME}"),
        }
    }
}

/// The hash by which a book finds a name. Its keys are 0, and everybody knows them.
fn hash_of(name: &str) -> u64 {
    let mut hasher = DefaultHasher::new();
    hasher.write(name.as_bytes());
    hasher.finish()
}

fn names() -> impl Iterator<Item = String> {
    (10_000_000..).map(|number| format!("n{number}"))
}

/// Names as a stranger would choose them: their hashes are all in one of the 512 parts of a book's index, and come in falling
/// order, so that each goes before all others, and each split leaves a piece half full.
fn chosen_names() -> Vec<String> {
    let mut found: Vec<_> = names().filter(|name| hash_of(name) % 512 == 0).take(NAMES).collect();
    found.sort_by_key(|name| std::cmp::Reverse(hash_of(name)));
    found
}

fn main() -> io::Result<()> {
    let words: Vec<String> = std::env::args().skip(1).collect();
    let mut script = Script { out: BufWriter::new(io::stdout().lock()), operations: 0 };
    match words[0].as_str() {
        "rmat" => script.rmat()?,
        "wide" => script.wide()?,
        "sparse" => script.sparse()?,
        "hub" => script.hub()?,
        "mixed" => script.mixed()?,
        "ordinary" => script.path(&names().take(NAMES).collect::<Vec<_>>())?,
        "chosen" => script.path(&chosen_names())?,
        "empty" => script.empty()?,
        _ => {}
    }
    writeln!(script.out, "open,0")?;
    for pair in words[1..].chunks(2) {
        for _ in 0..pair[1].parse().expect("how often") {
            script.request(&pair[0])?;
        }
    }
    script.out.flush()
}
