//! Datagrams through the boundary: another value in every field, document 01's examples, and names.

use ledgerwren::*;

const CID: Cid = [1, 2, 3, 4, 5, 6, 7, 8, 9, 10, 11, 12, 13, 14, 15, 16];

/// Document 01's packet S.
const S: [u8; 49] = *b"\x00\x10\x00\x00ASC-E1.17\x00\x00\x00\x70\x21\x00\x00\x00\x08\
    \x11\x11\x11\x11\x11\x11\x11\x11\x11\x11\x11\x11\x11\x11\x11\x11\
    \x70\x0b\x00\x00\x00\x01\x07\x1f\x40\x00\x00";

const NAME: usize = 44;

fn data(source_name: &str) -> DataPacket<'_> {
    DataPacket {
        source_name,
        priority: 100,
        synchronization_address: 0x1f1a,
        sequence_number: 154,
        preview_data: false,
        stream_terminated: false,
        force_synchronization: false,
        universe: 0x0304,
        property_values: &[0, 255, 128, 7],
    }
}

fn datagram(packet: &DataPacket) -> Vec<u8> {
    let mut buf = vec![0xee; 638];
    let length = pack_data(&mut buf, CID, packet).expect("a packet that can be written");
    buf.truncate(length);
    buf
}

fn discovery() -> Vec<u8> {
    let mut buf = vec![0xee; 1144];
    let packet = UniverseDiscovery {
        source_name: "Desk é",
        page: 3,
        last_page: 5,
        universes: &[1, 0x0203, 0xfffe],
    };
    let length = pack_discovery(&mut buf, CID, &packet).expect("a packet that can be written");
    buf.truncate(length);
    buf
}

/// S with other bytes from a place on.
fn changed(at: usize, bytes: &[u8]) -> [u8; 49] {
    let mut datagram = S;
    datagram[at..at + bytes.len()].copy_from_slice(bytes);
    datagram
}

fn refused(datagram: &[u8]) -> (u8, u8, u32) {
    let refusal = parse(datagram).expect_err("a refusal");
    (refusal.number(), refusal.place(), refusal.value())
}

#[test]
fn every_field_of_data_comes_through() {
    for option in 0..3 {
        let packet = DataPacket {
            preview_data: option == 0,
            stream_terminated: option == 1,
            force_synchronization: option == 2,
            ..data("Desk é")
        };
        let datagram = datagram(&packet);
        let read = parse(&datagram).expect("a data packet");
        assert_eq!(read.cid, CID);
        assert_eq!(read.data, PacketData::DataPacket(packet));
    }
}

#[test]
fn name_and_values_are_the_datagrams_own() {
    let datagram = datagram(&data("Desk é"));
    let Ok(PacketData::DataPacket(read)) = parse(&datagram).map(|packet| packet.data) else {
        panic!("a data packet");
    };
    assert_eq!(read.source_name.as_ptr(), datagram[NAME..].as_ptr());
    assert_eq!(read.property_values.as_ptr(), datagram[125..].as_ptr());
}

#[test]
fn every_field_of_2009_comes_through() {
    for option in 0..2 {
        let packet = DataPacket {
            preview_data: option == 0,
            stream_terminated: option == 1,
            synchronization_address: 64000,
            ..data("Desk é")
        };
        let datagram = datagram(&packet);
        let read = parse_2009(&datagram).expect("a data packet");
        assert_eq!((read.cid, read.source_name), (CID, "Desk é"));
        assert_eq!((read.priority, read.sequence_number), (100, 154));
        assert_eq!(
            (read.preview_data, read.stream_terminated),
            (option == 0, option == 1)
        );
        assert_eq!(read.universe, 0x0304);
        assert_eq!(read.property_values, [0, 255, 128, 7]);
    }
    let refusal = parse_2009(&S).expect_err("S is no data packet");
    assert_eq!(
        (refusal.number(), refusal.place(), refusal.value()),
        (4, 2, 8)
    );
}

#[test]
fn packet_s_is_read() {
    let expected = SynchronizationPacket {
        sequence_number: 7,
        synchronization_address: 8000,
    };
    let read = parse(&S).expect("a synchronization packet");
    assert_eq!(read.cid, [0x11; 16]);
    assert_eq!(read.data, PacketData::SynchronizationPacket(expected));
}

#[test]
fn every_field_of_discovery_comes_through() {
    let datagram = discovery();
    let read = parse(&datagram).expect("a discovery packet");
    assert_eq!(read.cid, CID);
    let PacketData::UniverseDiscoveryPacket(read) = read.data else {
        panic!("a discovery packet");
    };
    assert_eq!(
        (read.source_name, read.page, read.last_page),
        ("Desk é", 3, 5)
    );
    assert_eq!(
        read.universes.iter().collect::<Vec<_>>(),
        [1, 0x0203, 0xfffe]
    );
}

#[test]
fn the_examples_are_refused_as_document_01_says() {
    assert_eq!(refused(&[]), (1, 1, 0));
    assert_eq!(refused(&changed(39, &[10])), (5, 3, 10));
    assert_eq!(refused(&changed(39, &[12])), (14, 3, 12));
    assert_eq!(refused(&changed(39, &[12, 0, 0, 0, 7])), (4, 3, 7));
    assert_eq!(refused(&changed(45, &[0, 0])), (9, 3, 0));
    assert_eq!(refused(&changed(16, &[0x60])), (3, 2, 96));
    assert_eq!(refused(&changed(17, &[21])), (13, 2, 0));
    // A value of all 32 bits.
    assert_eq!(
        refused(&changed(18, &[0xde, 0xad, 0xbe, 0xef])),
        (4, 2, 0xdead_beef)
    );
}

#[test]
fn a_cut_datagram_is_refused_and_a_longer_one_read() {
    for whole in [S.to_vec(), datagram(&data("Desk é")), discovery()] {
        let root_length = whole.len() as u32 - 16;
        for length in 0..whole.len() {
            let expected = match length {
                0..=15 => (1, 1, 0),
                16..=21 => (1, 2, 0),
                _ => (14, 2, root_length),
            };
            assert_eq!(refused(&whole[..length]), expected, "{length} bytes");
        }
        let longer = [&whole[..], &[0xff; 9]].concat();
        assert_eq!(parse(&longer), parse(&whole));
    }
}

/// A length that is beyond its part, a count that is not the length's, a discovery length that is not its
/// part's: each with its number, its layer and what it says. The second bytes of their fields are set.
#[test]
fn a_false_length_and_a_false_count_are_told_apart() {
    let data = datagram(&data("Desk é"));
    let (root, framing, dmp) = (data[17], data[39], data[116]);
    let discovery = discovery();
    let layer = discovery[113];
    let cases = [
        (&data, 17, root + 1, (14, 2)),
        (&data, 39, framing + 1, (14, 3)),
        (&data, 116, dmp + 1, (14, 4)),
        (&data, 124, 3, (15, 4)),
        (&data, 124, 5, (15, 4)),
        // Beyond root's part, and beyond its own.
        (&discovery, 39, discovery[17] + 1, (14, 3)),
        (&discovery, 39, discovery[39] + 1, (14, 3)),
        (&discovery, 113, layer + 1, (16, 5)),
        (&discovery, 113, layer - 1, (16, 5)),
    ];
    for (whole, at, says, (number, place)) in cases {
        let mut datagram = whole.clone();
        datagram[at] = says;
        let expected = (number, place, u32::from(says));
        assert_eq!(refused(&datagram), expected, "{says} at {at}");
        let old = parse_2009(&datagram).expect_err("a refusal");
        let told = (old.number(), old.place(), old.value());
        let in_2009 = if *whole == data { expected } else { (4, 2, 8) };
        assert_eq!(told, in_2009, "{says} at {at}, by the edition of 2009");
    }
}

/// A data packet whose value is taken away, and with it the count and each layer's length made less.
#[test]
fn without_a_start_code_nothing_is_read() {
    let whole = datagram(&DataPacket {
        property_values: &[0],
        ..data("Desk é")
    });
    assert!(parse(&whole).is_ok() && parse_2009(&whole).is_ok());
    let mut empty = whole[..125].to_vec();
    for at in [17, 39, 116, 124] {
        empty[at] -= 1;
    }
    // A count of 0 beside a length that says otherwise is a false count.
    let mut miscounted = whole;
    miscounted[124] = 0;
    for (datagram, number) in [(empty, 17), (miscounted, 15)] {
        assert_eq!(refused(&datagram), (number, 4, 0));
        let old = parse_2009(&datagram).expect_err("a refusal");
        assert_eq!((old.number(), old.place(), old.value()), (number, 4, 0));
    }
}

/// Reads a data packet with these bytes as its name, and says what came of it: the name, or the number
/// and the value of the refusal.
fn named<'a>(datagram: &'a mut [u8], name: &[u8]) -> Result<&'a str, (u8, u32)> {
    datagram[NAME..NAME + name.len()].copy_from_slice(name);
    datagram[NAME + name.len()..NAME + 64].fill(0);
    match parse(datagram) {
        Ok(Packet {
            data: PacketData::DataPacket(packet),
            ..
        }) => Ok(packet.source_name),
        Ok(packet) => panic!("{packet:?} is no data packet"),
        Err(refusal) => Err((refusal.number(), refusal.value())),
    }
}

/// The name is taken for UTF-8 unseen, so the reader is asked where the library would look, and how many
/// bytes of another are good.
#[test]
fn a_name_is_read_exactly_where_it_is_utf8() {
    const MALFORMED: u8 = Check::NameNotUtf8 as u8;
    const THIRD: [u8; 4] = [0x7f, 0x80, 0xbf, 0xc0];
    let mut datagram = datagram(&data(""));
    // A zero would end the name.
    for first in 1..=255 {
        for second in 1..=255 {
            for third in THIRD {
                let name = [first, second, third, 0x80];
                for name in [&name[..2], &name[..3], &name] {
                    let expected = std::str::from_utf8(name);
                    let expected =
                        expected.map_err(|error| (MALFORMED, error.valid_up_to() as u32));
                    assert_eq!(named(&mut datagram, name), expected, "{name:x?}");
                }
            }
        }
    }
}

#[test]
fn a_malformed_name_tells_how_many_bytes_are_good() {
    let last = [&[b'n'; 62][..], &[0xff]].concat();
    let names: [(&[u8], u32); 6] = [
        (b"\xc3\x28", 0),
        (b"a\xc3", 1),
        (b"ab\xed\xa0\x80", 2),
        (b"\xe2\x82\xac\xc0", 3),
        (b"\xf0\x9f\x92", 0),
        (&last, 62),
    ];
    for (name, good) in names {
        // What stands behind the zero changes nothing, not even a byte that could go on.
        for rubbish in [0, 0x80, 0xff] {
            let mut field = [name, &[0]].concat();
            field.resize(64, rubbish);
            for mut datagram in [datagram(&data("")), discovery()] {
                datagram[NAME..NAME + 64].copy_from_slice(&field);
                assert_eq!(refused(&datagram), (7, 3, good), "{field:x?}");
            }
            let mut datagram = datagram(&data(""));
            datagram[NAME..NAME + 64].copy_from_slice(&field);
            let old = parse_2009(&datagram).expect_err("a refusal");
            assert_eq!((old.number(), old.place(), old.value()), (7, 3, good));
        }
    }
}

#[test]
fn rubbish_behind_the_name_is_not_part_of_it() {
    let mut datagram = datagram(&data("Desk"));
    datagram[NAME + 5..NAME + 64].fill(0xff);
    let Ok(PacketData::DataPacket(read)) = parse(&datagram).map(|packet| packet.data) else {
        panic!("a data packet");
    };
    assert_eq!(read.source_name, "Desk");
    datagram[NAME + 4] = b'n';
    assert_eq!(refused(&datagram), (6, 3, 0));
}
