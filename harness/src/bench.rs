//! How long the proved functions take, beside the model's, in one run on one machine.

mod calls;
mod checksum;
mod timing;

use std::fmt;

use crate::model::Shape;
use checksum::ByteTimes;
use timing::Times;

/// Payload bytes of each entry: a usual line of text, and as many as there may be.
const SIZES: [usize; 2] = [20, 200];
/// Replicas and slots of the clusters, which are of edition 1 where nothing else is said.
const SHAPES: [(usize, usize); 4] = [(3, 8), (3, 64), (7, 8), (7, 64)];
/// A cluster of edition 2: its records and entries are judged under the header's first index.
const EDITION_2: Shape = Shape::edition_2(7, 64);
/// Slots in the table of how reading and planning grow.
const SLOTS: [usize; 7] = [1, 2, 4, 8, 16, 32, 64];
/// Stores in the table of how a recovery grows.
const STORES: [usize; 5] = [1, 4, 16, 64, 256];
/// How many calls are timed.
pub const TIMED: usize =
    checksum::LENGTHS.len() + SIZES.len() * (6 + 3 * SHAPES.len()) + 2 * SLOTS.len() + STORES.len();

/// Times a call by the shape and the payload bytes.
type Timed = fn(Shape, usize) -> Times;

/// One call on one shape, for each size of the payloads. A call about one image has no n.
struct Row {
    name: &'static str,
    n: Option<usize>,
    m: Option<usize>,
    times: [Times; 2],
}

/// All that is printed.
pub struct Bench {
    checksums: [ByteTimes; checksum::LENGTHS.len()],
    rows: Vec<Row>,
    /// By the number of slots: a read, and a plan of seven replicas.
    by_slots: Vec<(usize, Times, Times)>,
    by_stores: Vec<(usize, Times)>,
}

/// Times every call.
pub fn bench() -> Bench {
    let most = SIZES[1];
    Bench {
        checksums: checksum::LENGTHS.map(checksum::byte_times),
        rows: rows(),
        by_slots: SLOTS
            .map(|m| {
                let shape = Shape::edition_1(7, m);
                (m, calls::read(shape, most), calls::plan(shape, most))
            })
            .into(),
        by_stores: STORES
            .map(|stores| {
                let shape = Shape::edition_1(7, 64);
                (stores, calls::recovery_of_stores(shape, most, stores))
            })
            .into(),
    }
}

fn rows() -> Vec<Row> {
    let mut rows = Vec::new();
    let read: Timed = calls::read;
    for (name, call) in [("read", read), ("append", calls::append)] {
        for m in [8, 64] {
            let shape = Shape::edition_1(3, m);
            rows.push(row_of(name, None, shape, call));
        }
    }
    rows.push(row_of("read, edition 2", None, EDITION_2, calls::read));
    let plan: Timed = calls::plan;
    let of_cluster = [
        ("plan", plan),
        ("step", calls::step),
        ("recovery", calls::recovery),
    ];
    for (name, call) in of_cluster {
        for (n, m) in SHAPES {
            let shape = Shape::edition_1(n, m);
            rows.push(row_of(name, Some(n), shape, call));
        }
    }
    let n = Some(EDITION_2.n);
    rows.push(row_of("plan, edition 2", n, EDITION_2, calls::plan));
    rows
}

fn row_of(name: &'static str, n: Option<usize>, shape: Shape, call: Timed) -> Row {
    Row {
        name,
        n,
        m: Some(shape.m),
        times: SIZES.map(|size| call(shape, size)),
    }
}

/// A call's times and their ratio, in three columns.
struct Columns(Times);

impl fmt::Display for Columns {
    fn fmt(&self, f: &mut fmt::Formatter) -> fmt::Result {
        let Times { proved, model } = self.0;
        write!(f, "{proved:>11}{model:>11}{:>9.2}", self.0.ratio())
    }
}

const HEADINGS: &str = "     proved      model    ratio";

const MEANING: &str = "\
Times are medians, of one call; ratio is the model's time by the proved function's.
Cards are of edition 1 where 2 is not named.
read       of a full log
append     of the last slot of a log
plan       every entry of leader 1 is damaged and to be fetched
step       the first store of that plan
recovery   a run that makes all its stores, m of them
";

impl fmt::Display for Bench {
    fn fmt(&self, f: &mut fmt::Formatter) -> fmt::Result {
        self.fmt_checksums(f)?;
        let [few, most] = SIZES.map(|size| format!("{size} payload bytes"));
        writeln!(f, "{:24}{few:>31} |{most:>31}", "")?;
        writeln!(f, "{:16}{:>4}{:>4}{HEADINGS} |{HEADINGS}", "", "n", "m")?;
        for Row { name, n, m, times } in &self.rows {
            let [n, m] = [n, m].map(|count| count.map_or("".into(), |count| count.to_string()));
            let [few, most] = times.map(Columns);
            writeln!(f, "{name:16}{n:>4}{m:>4}{few} |{most}")?;
        }
        writeln!(f, "{MEANING}")?;
        self.fmt_by_slots(f)?;
        self.fmt_by_stores(f)
    }
}

impl Bench {
    fn fmt_checksums(&self, f: &mut fmt::Formatter) -> fmt::Result {
        let (blocks, straight) = ("sums of blocks", "straight loop");
        writeln!(f, "{:8}{:>11} |{blocks:>20} |{straight:>20}", "", "")?;
        let by = "    time    ratio";
        writeln!(f, "{:>8}{:>11} |   {by} |   {by}", "bytes", "proved")?;
        for times in &self.checksums {
            let (length, proved) = (times.length, times.proved);
            write!(f, "{length:>8}{proved:>11}")?;
            for other in [times.blocks, times.straight] {
                write!(f, " |{other:>11}{:>9.2}", other.0 / proved.0)?;
            }
            writeln!(f)?;
        }
        writeln!(
            f,
            "The checksum, for each byte. Sums of blocks: 256 bytes are added up between two remainders,\n\
             as in version 2.0.0. Straight loop: the model's, with two remainders for each byte.\n"
        )
    }

    fn fmt_by_slots(&self, f: &mut fmt::Formatter) -> fmt::Result {
        let (read, plan) = ("read, for each slot", "plan of n = 7, for each slot");
        writeln!(f, "{:8}{read:>31} |{plan:>31}", "")?;
        writeln!(f, "{:>8}{HEADINGS} |{HEADINGS}", "m")?;
        for (m, read, plan) in &self.by_slots {
            let [read, plan] = [read, plan].map(|times| Columns(times.per(*m)));
            writeln!(f, "{m:>8}{read} |{plan}")?;
        }
        writeln!(
            f,
            "The same calls, 200 payload bytes, by the number of slots.\n"
        )
    }

    fn fmt_by_stores(&self, f: &mut fmt::Formatter) -> fmt::Result {
        let (whole, each) = ("recovery", "for each store");
        writeln!(f, "{:8}{whole:>31} |{each:>31}", "")?;
        writeln!(f, "{:>8}{HEADINGS} |{HEADINGS}", "stores")?;
        for (stores, times) in &self.by_stores {
            let (whole, each) = (Columns(*times), Columns(times.per(*stores)));
            writeln!(f, "{stores:>8}{whole} |{each}")?;
        }
        writeln!(
            f,
            "A run of n = 7, m = 64, 200 payload bytes, by how many entries of other replicas\n\
             are damaged; each is one store."
        )
    }
}
