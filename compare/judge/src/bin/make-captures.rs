//! Makes captures.
//!
//! make-captures speed FOLDER: large captures of good packets, to measure with: three for dump, and for
//! follow one for each number of sources.
//! make-captures sample FOLDER: the fixed sample of dump, sample.capture, and the lines expected of it,
//! sample.lines, which are the crate's answers (`refusal` says how a place is found) but for packets without
//! a start code (`exception`); and that of follow, follow.capture, with its lines by request 02's rules,
//! follow.lines.

use judge::inputs::{self, script, Draw};
use judge::random::Random;
use judge::record::{Data, Discovery, Record, Sync};
use judge::request::Request;
use judge::tally::{met, Met};
use judge::{capture, dump, follow, oracle};
use sacn::packet::AcnRootLayerProtocol;
use std::collections::BTreeMap;
use std::fs::File;
use std::io::{self, BufWriter, Write};
use std::panic;
use std::path::Path;

const NAME: &[u8] = b"Front of house, desk 1";

/// The captures for follow: so many sources send in turn, so many packets in all. The crate's follower
/// takes longer the more sources it keeps, so that many of them send fewer packets.
const FOLLOWED: [(usize, usize); 3] = [(10, 200_000), (100, 100_000), (1000, 20_000)];

fn create(folder: &Path, name: &str) -> io::Result<BufWriter<File>> {
    Ok(BufWriter::new(File::create(folder.join(name))?))
}

/// Writes `count` packets; `make` gets the packet's number and the random numbers.
fn packets(
    mut out: impl Write,
    count: usize,
    make: impl Fn(usize, &mut Random) -> Record,
) -> io::Result<()> {
    let mut random = Random::new(1);
    for i in 0..count {
        capture::write_entry(&mut out, &make(i, &mut random).datagram())?;
    }
    out.flush()
}

fn full_data(i: usize, random: &mut Random) -> Record {
    Record::Data(Data {
        cid: random.cid(),
        name: NAME.to_vec(),
        priority: 100,
        sync: 0,
        sequence: i as u8,
        options: 0,
        universe: 1 + (i % 63999) as u16,
        values: random.bytes(513),
    })
}

/// A packet with a start code alone, in order.
fn small_data(i: usize, sources: usize) -> Record {
    let number = (i / sources) as u8;
    Record::Data(script::data(script::source(i % sources), number, 0))
}

fn full_discovery(i: usize, random: &mut Random) -> Record {
    let first = random.below(1000) as u16;
    Record::Discovery(Discovery {
        cid: random.cid(),
        name: NAME.to_vec(),
        page: i as u8,
        last: 255,
        universes: (0..512).map(|k| first + 100 * k).collect(),
    })
}

fn speed(folder: &Path) -> io::Result<()> {
    packets(create(folder, "sync.capture")?, 1_000_000, |i, random| {
        Record::Sync(Sync {
            cid: random.cid(),
            sequence: i as u8,
            address: 1 + (i % 63999) as u16,
        })
    })?;
    packets(create(folder, "data.capture")?, 200_000, full_data)?;
    packets(create(folder, "disc.capture")?, 50_000, full_discovery)?;
    for (sources, count) in FOLLOWED {
        let out = create(folder, &format!("follow-{sources}.capture"))?;
        packets(out, count, |i, _| small_data(i, sources))?;
    }
    Ok(())
}

/// All datagrams to choose from.
fn candidates() -> Vec<Vec<u8>> {
    let mut all = Vec::new();
    inputs::datagrams(&mut |datagram| all.push(datagram));
    let mut draw = Draw(Random::new(1));
    all.extend((0..100_000).map(|_| draw.datagram()));
    all
}

/// Datagrams of one class are refused by the same check, or read as the same kind of record.
#[derive(PartialEq, Eq, PartialOrd, Ord)]
struct Class {
    met: Met,
    cause: String,
    long: bool,
}

impl Class {
    fn of(datagram: &[u8]) -> Class {
        let request = Request::Read(datagram.to_vec());
        Class {
            met: met(&request, &request.ask_crate()),
            cause: cause(datagram),
            long: datagram.len() > 200,
        }
    }

    /// How many datagrams the sample takes of the class; few of the long ones, for the file's size.
    fn quota(&self) -> usize {
        match self.met {
            _ if self.long => 3,
            Met::Read(_) => 100,
            _ => 38,
        }
    }
}

/// The crate's words without the numbers that vary: those of an error, and those of a panic that
/// stand behind its first number, which is the place of the missing field.
fn cause(datagram: &[u8]) -> String {
    match panic::catch_unwind(|| AcnRootLayerProtocol::parse(datagram).map(|_| ())) {
        Ok(Ok(())) => String::new(),
        Ok(Err(error)) => format!("{error:?}").replace(|c: char| c.is_ascii_digit(), ""),
        Err(words) => {
            let words = words.downcast::<String>().expect("a panic of an index");
            let number = words.find(|c: char| c.is_ascii_digit()).unwrap_or(0);
            words[..words.len().min(number + 2)].to_string()
        }
    }
}

/// Takes the quota of each class, evenly from all that are in it.
fn chosen() -> Vec<Vec<u8>> {
    let all = candidates();
    let mut sizes: BTreeMap<Class, usize> = BTreeMap::new();
    for datagram in &all {
        *sizes.entry(Class::of(datagram)).or_default() += 1;
    }
    let mut seen: BTreeMap<Class, usize> = BTreeMap::new();
    let mut chosen = all;
    chosen.retain(|datagram| {
        let class = Class::of(datagram);
        let quota = class.quota();
        let size = sizes[&class].max(quota);
        let i = seen.entry(class).or_default();
        *i += 1;
        *i * quota / size != (*i - 1) * quota / size
    });
    chosen
}

/// Document 01's own capture: its packet S, and the empty datagram.
fn example() -> Vec<Vec<u8>> {
    let s = Record::Sync(Sync {
        cid: [0x11; 16],
        sequence: 7,
        address: 8000,
    });
    vec![s.datagram(), Vec::new()]
}

fn sample(folder: &Path) -> io::Result<()> {
    let mut entries = create(folder, "sample.capture")?;
    let mut lines = create(folder, "sample.lines")?;
    let mut text = Vec::new();
    let mut datagrams = example();
    datagrams.extend(chosen());
    for (i, datagram) in datagrams.iter().enumerate() {
        capture::write_entry(&mut entries, datagram)?;
        dump::write_line(&mut lines, i as u64 + 1, datagram, &mut text)?;
    }
    writeln!(lines, "end {}", datagrams.len())?;
    lines.flush()?;
    entries.flush()
}

fn follow_sample(folder: &Path) -> io::Result<()> {
    let capture = capture::of(&script::sample());
    create(folder, "follow.capture")?.write_all(&capture)?;
    let mut lines = create(folder, "follow.lines")?;
    follow::write_text(&mut lines, &capture, |_, _, _| {})?;
    lines.flush()
}

fn main() -> io::Result<()> {
    oracle::keep_panics_of_crate();
    let words: Vec<String> = std::env::args().skip(1).collect();
    match &words[..] {
        [what, folder] if what == "speed" => speed(Path::new(folder)),
        [what, folder] if what == "sample" => {
            sample(Path::new(folder))?;
            follow_sample(Path::new(folder))
        }
        _ => Err(io::Error::other("make-captures speed|sample FOLDER")),
    }
}
