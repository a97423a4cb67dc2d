//! What is timed, and how fast it has to be.

use crate::answers::Answers;
use crate::calls;
use crate::ours;
use crate::timing::{best, copy_timer, Timer};
use judge::record::{Data, Discovery, Record, Sync};
use judge::request::Request;

const CID: [u8; 16] = *b"\x11\x22\x33\x44\x55\x66\x77\x88\x99\xaa\xbb\xcc\xdd\xee\xff\x00";
const NAME: &str = "Front of house, desk 1";
/// Names with how they are told: as long as the first one or as long as can be, of ASCII, of that and
/// characters of two bytes, and of characters of three, with a digit behind them where one is missing.
const NAMES: [(&str, usize, &str); 5] = [
    (
        "parse name 63 plain",
        63,
        "Front of house, desk 1, left side, upstairs, behind the curtain",
    ),
    ("parse name 22 mixed", 22, "Bühne für Gäste, A1"),
    (
        "parse name 63 mixed",
        63,
        "Éclairage façade côté cour, régie générale, pupitres 1+2",
    ),
    ("parse name 22 threes", 22, "舞台照明卓正面1"),
    (
        "parse name 63 threes",
        63,
        "舞台照明卓正面上手舞台照明卓正面上手舞台照",
    ),
];

pub struct Case {
    name: &'static str,
    request: Request,
    /// What our answer starts with.
    answer: &'static str,
    /// How many times as fast as the crate it has to be.
    target: Option<f64>,
}

pub fn data(name: &str, values: usize) -> Record {
    Record::Data(Data {
        cid: CID,
        name: name.as_bytes().to_vec(),
        priority: 100,
        sync: 7962,
        sequence: 154,
        options: 0x20,
        universe: 1,
        values: (0..values).map(|i| i as u8).collect(),
    })
}

fn synchronization() -> Record {
    Record::Sync(Sync {
        cid: CID,
        sequence: 7,
        address: 8000,
    })
}

/// Universes 100 apart, as far as they are asked for.
pub fn discovery(universes: usize) -> Record {
    Record::Discovery(Discovery {
        cid: CID,
        name: NAME.as_bytes().to_vec(),
        page: 1,
        last: 2,
        universes: (0..universes).map(|i| 7 + 100 * i as u16).collect(),
    })
}

/// The last universe is below the one before it.
fn falling_discovery() -> Record {
    let mut record = discovery(512);
    if let Record::Discovery(list) = &mut record {
        list.universes[511] = list.universes[510] - 1;
    }
    record
}

fn bad_preamble() -> Vec<u8> {
    let mut datagram = data(NAME, 513).datagram();
    datagram[1] = 0x11;
    datagram
}

fn read(name: &'static str, datagram: Vec<u8>, answer: &'static str, target: Option<f64>) -> Case {
    Case {
        name,
        request: Request::Read(datagram),
        answer,
        target,
    }
}

/// A packet into a buffer that is `missing` bytes too short.
fn write(
    name: &'static str,
    record: Record,
    missing: usize,
    answer: &'static str,
    target: Option<f64>,
) -> Case {
    let room = record.packet_length() - missing;
    Case {
        name,
        request: Request::Pack(record, room),
        answer,
        target,
    }
}

/// Reading data with one value under each name.
fn names() -> Vec<Case> {
    let case = |(told, bytes, name): &(&'static str, usize, &str)| {
        assert_eq!(name.len(), *bytes, "{told}");
        read(told, data(name, 1).datagram(), "data", None)
    };
    NAMES.iter().map(case).collect()
}

const TWICE: Option<f64> = Some(2.0);
const THRICE: Option<f64> = Some(3.0);
const NO_SLOWER: Option<f64> = Some(1.0);

/// Reading: the last three are refused by the first check and by the last ones.
fn readings() -> Vec<Case> {
    let over = data(NAME, 514).datagram();
    let falling = falling_discovery().datagram();
    let early = "refused 2 place 1";
    let late = "refused 2 place 4";
    vec![
        read("parse data 513", data(NAME, 513).datagram(), "data", THRICE),
        read("parse data 1", data(NAME, 1).datagram(), "data", None),
        read(
            "parse sync",
            synchronization().datagram(),
            "sync",
            NO_SLOWER,
        ),
        read(
            "parse discovery 512",
            discovery(512).datagram(),
            "disc",
            TWICE,
        ),
        read("parse discovery 0", discovery(0).datagram(), "disc", None),
        read("parse refused: preamble", bad_preamble(), early, NO_SLOWER),
        read("parse refused: 514 values", over, late, NO_SLOWER),
        read(
            "parse refused: last universe",
            falling,
            "refused 12",
            NO_SLOWER,
        ),
    ]
}

/// Writing: the last three are refused by the first check and by the last ones.
fn writings() -> Vec<Case> {
    let over = data(NAME, 514);
    let falling = falling_discovery();
    let short = data(NAME, 513);
    vec![
        write("pack data 513", data(NAME, 513), 0, "packed", NO_SLOWER),
        write("pack data 1", data(NAME, 1), 0, "packed", None),
        write("pack sync", synchronization(), 0, "packed", None),
        write("pack discovery 512", discovery(512), 0, "packed", TWICE),
        write("pack discovery 0", discovery(0), 0, "packed", None),
        write(
            "pack refused: short buffer",
            short,
            1,
            "refused 20",
            NO_SLOWER,
        ),
        write("pack refused: 514 values", over, 0, "refused 24", NO_SLOWER),
        write(
            "pack refused: last universe",
            falling,
            0,
            "refused 26",
            NO_SLOWER,
        ),
    ]
}

pub fn all() -> Vec<Case> {
    let mut cases = readings();
    cases.extend(names());
    cases.extend(writings());
    cases
}

impl Case {
    /// Compares the answers to this case, and holds ours to what the case is there for.
    pub fn check(&self, answers: &mut Answers) {
        answers.take(&self.request);
        self.check_ours();
    }

    /// Holds our answer to what the case is there for.
    pub fn check_ours(&self) {
        let line = ours::ask(&self.request).map(|answer| answer.line());
        let line = line.unwrap_or_default();
        assert!(line.starts_with(self.answer), "{}: {line}", self.name);
    }

    /// The packet, and what to time: ours and the crate's.
    fn timers(&self) -> (Vec<u8>, [Timer<'_>; 2]) {
        match &self.request {
            Request::Read(datagram) => (datagram.clone(), calls::reading(datagram)),
            Request::Pack(record, room) => (record.datagram(), calls::writing(record, *room)),
            Request::Universe(_) => unreachable!("no case asks for an address"),
        }
    }

    /// Times our call alone, and prints the nanoseconds before the case.
    pub fn time_ours(&self, rounds: u64) {
        let (_, [ours, _]) = self.timers();
        let [ours] = best([ours], rounds);
        println!("{ours:.1} {}", self.name);
    }

    /// Times the case, prints its row, and says whether no target was missed.
    pub fn time(&self, rounds: u64) -> bool {
        let (datagram, [ours, theirs]) = self.timers();
        let [ours, theirs, copy] = best([ours, theirs, copy_timer(&datagram)], rounds);
        let ratio = theirs / ours;
        let target = self
            .target
            .map_or("-".to_string(), |target| format!("{target:.1}"));
        let verdict = match self.target {
            None => "",
            Some(target) if ratio >= target => "met",
            Some(_) => "missed",
        };
        println!(
            "{:<29}{ours:>9.1}{theirs:>10.1}{ratio:>14.2}{copy:>11.1}{target:>8}  {verdict}",
            self.name
        );
        verdict != "missed"
    }
}

/// The row above the cases.
pub fn print_head() {
    println!(
        "{:<29}{:>9}{:>10}{:>14}{:>11}{:>8}",
        "case", "ours, ns", "crate, ns", "crate / ours", "memcpy, ns", "target"
    );
}
