//! The example `export`, run on captures.

mod common;

use ledgerwren::*;
use std::env;
use std::io::Write;
use std::path::{Path, PathBuf};
use std::process::{Output, Stdio};
use std::time::SystemTime;

const CID: Cid = [7; 16];
const REFUSED: &[u8] = b"no packet at all";

fn data(source_name: &str) -> Vec<u8> {
    let mut buf = vec![0; 638];
    let packet = DataPacket {
        source_name,
        priority: 100,
        synchronization_address: 0x1f1a,
        sequence_number: 154,
        preview_data: true,
        stream_terminated: false,
        force_synchronization: true,
        universe: 0x0304,
        property_values: &[5; 513],
    };
    let length = pack_data(&mut buf, CID, &packet).expect("a data packet");
    buf.truncate(length);
    buf
}

fn discovery(source_name: &str) -> Vec<u8> {
    let mut buf = vec![0; 1144];
    let packet = UniverseDiscovery {
        source_name,
        page: 3,
        last_page: 5,
        universes: &[1, 0x0203, 0xfffe],
    };
    let length = pack_discovery(&mut buf, CID, &packet).expect("a discovery packet");
    buf.truncate(length);
    buf
}

fn synchronization() -> Vec<u8> {
    let mut buf = vec![0; 49];
    let packet = SynchronizationPacket {
        sequence_number: 7,
        synchronization_address: 8000,
    };
    pack_synchronization(&mut buf, CID, &packet).expect("a synchronization packet");
    // A reserved place, which a packet that is handed on keeps.
    buf[48] = 1;
    buf
}

/// Document 01's form: the length in groups of seven bits, lowest first.
fn capture(entries: &[Vec<u8>]) -> Vec<u8> {
    let mut bytes = Vec::new();
    for entry in entries {
        match entry.len() {
            short @ 0..=127 => bytes.push(short as u8),
            long => bytes.extend([(long % 128) as u8 + 128, (long / 128) as u8]),
        }
        bytes.extend(entry);
    }
    bytes
}

fn date(file: &Path) -> SystemTime {
    let date = file.metadata().and_then(|file| file.modified());
    date.unwrap_or_else(|error| panic!("{}: {error}", file.display()))
}

/// Runs the example, which cargo builds beside the tests.
fn export(words: &[&str], input: &[u8]) -> Output {
    // The first word is the test itself.
    let test = PathBuf::from(env::args().next().expect("the test's path"));
    let folder = test
        .ancestors()
        .nth(2)
        .expect("the folder of what cargo built");
    let program = folder.join("examples/export");
    // With `--test` alone cargo does not build examples, and an older one would be tested.
    let source = Path::new(env!("CARGO_MANIFEST_DIR")).join("examples/export.rs");
    assert!(
        date(&program) >= date(&source),
        "the example is older than its source: run all tests"
    );
    let mut child = common::start(program.to_str().expect("a path in UTF-8"))
        .args(words)
        .stdin(Stdio::piped())
        .stdout(Stdio::piped())
        .stderr(Stdio::piped())
        .spawn()
        .expect("the example starts");
    let mut stdin = child.stdin.take().expect("standard input is a pipe");
    // The captures here are small enough for the pipes.
    stdin.write_all(input).expect("the example reads all");
    drop(stdin);
    child.wait_with_output().expect("the example ends")
}

#[track_caller]
fn assert_output(output: &Output, entries: &[Vec<u8>], told: &str, status: i32) {
    assert_eq!(String::from_utf8_lossy(&output.stderr), told);
    assert_eq!(output.stdout, capture(entries));
    assert_eq!(output.status.code(), Some(status));
}

#[test]
fn a_name_of_63_bytes_is_replaced_everywhere() {
    let name = "n".repeat(63);
    let input = [
        data("Desk 1"),
        REFUSED.to_vec(),
        synchronization(),
        discovery("Desk 1"),
        data("Desk 2"),
        Vec::new(),
    ];
    let expected = [
        data(&name),
        REFUSED.to_vec(),
        synchronization(),
        discovery(&name),
        data("Desk 2"),
        Vec::new(),
    ];
    let output = export(&[&format!("Desk 1={name}")], &capture(&input));
    assert_output(&output, &expected, "", 0);
    let PacketData::DataPacket(read) = parse(&output.stdout[2..640]).expect("a packet").data else {
        panic!("a data packet");
    };
    assert_eq!(
        (read.source_name, read.priority, read.universe),
        (&name[..], 100, 0x0304)
    );
}

#[test]
fn a_name_of_64_bytes_is_told_and_the_entry_kept() {
    let name = "n".repeat(64);
    // Rubbish behind the packet: an entry that is handed on keeps it.
    let padded = [data("Desk 1"), vec![0xff; 3]].concat();
    let input = [data("Desk 2"), padded, data("Desk 2"), discovery("Desk 1")];
    let expected = [
        data("Balcony"),
        input[1].clone(),
        data("Balcony"),
        input[3].clone(),
    ];
    let words = [&format!("Desk 1={name}")[..], "Desk 2=Balcony"];
    let told = "entry 2: the name has more than 63 bytes (21)\n\
        entry 4: the name has more than 63 bytes (21)\n";
    assert_output(&export(&words, &capture(&input)), &expected, told, 1);
}

#[test]
fn a_packet_written_anew_has_nothing_behind_it() {
    let padded = [data("Desk 1"), vec![0xff; 3]].concat();
    let output = export(&["Desk 1=Balcony=left"], &capture(&[padded]));
    assert_output(&output, &[data("Balcony=left")], "", 0);
}

#[test]
fn a_cut_or_bad_capture_is_told_behind_its_entries() {
    let whole = [data("Desk 1")];
    for (tail, fault) in [
        (&b"\x02a"[..], "is cut"),
        (b"\x80", "is cut"),
        (b"\x80\x00", "has a bad length"),
        (b"\x81\x40", "has a bad length"),
        (b"\x80\x80\x01", "has a bad length"),
    ] {
        let input = [&capture(&whole)[..], tail].concat();
        let told = format!("the capture {fault} behind entry 1\n");
        let output = export(&["Desk 1=Balcony"], &input);
        assert_output(&output, &[data("Balcony")], &told, 1);
    }
    // The longest entry, and no names to replace.
    let longest = [vec![1; 8192]];
    assert_output(&export(&[], &capture(&longest)), &longest, "", 0);
}

#[test]
fn wrong_words_are_told() {
    let output = export(&["Desk 1"], b"");
    assert_output(&output, &[], "export: Desk 1 is not OLD=NEW\n", 2);
    let output = export(&["a=b", "a=c"], b"");
    assert_output(&output, &[], "export: a is to have two names\n", 2);
}
