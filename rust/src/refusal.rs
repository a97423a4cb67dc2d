//! Why something is refused.

use std::error::Error;
use std::fmt::{self, Display, Formatter};

/// Why a datagram is not read, or a packet not written: which check failed, in which layer, and the
/// value that it tells.
///
/// ```
/// use ledgerwren::{parse, Check, Layer};
///
/// let refusal = parse(&[]).unwrap_err();
/// assert_eq!(refusal.check(), Check::PartTooShort);
/// assert_eq!(refusal.layer(), Some(Layer::Preamble));
/// assert_eq!((refusal.number(), refusal.place(), refusal.value()), (1, 1, 0));
/// ```
#[repr(C)]
#[derive(Clone, Copy, PartialEq, Eq, Hash, Debug)]
#[non_exhaustive]
pub struct Refusal {
    number: u8,
    place: u8,
    value: u32,
}

impl Refusal {
    /// The check's number.
    pub fn number(&self) -> u8 {
        self.number
    }

    /// The layer's number, 0 where no layer is at fault.
    pub fn place(&self) -> u8 {
        self.place
    }

    /// What the check tells, mostly the value that failed it; 0 where it tells none. [`Check`] says
    /// for each what its value is.
    pub fn value(&self) -> u32 {
        self.value
    }

    /// The check that failed.
    pub fn check(&self) -> Check {
        Check::of(self.number)
    }

    /// The layer that was being read. There is none when a packet is written, a universe is looked
    /// at or universes are copied.
    pub fn layer(&self) -> Option<Layer> {
        Layer::of(self.place)
    }

    /// Turns the library's answer into a result: there the number 0 says that nothing is refused.
    #[inline]
    pub(crate) fn unless_none(self) -> Result<(), Refusal> {
        match self.number {
            0 => Ok(()),
            _ => Err(self),
        }
    }
}

impl Display for Refusal {
    /// The check in words and its number, the layer, and the value where the check has one.
    ///
    /// ```
    /// use ledgerwren::{pack_data, parse, DataPacket};
    ///
    /// let packet = DataPacket {
    ///     source_name: "FOH é",
    ///     priority: 100,
    ///     synchronization_address: 0,
    ///     sequence_number: 1,
    ///     preview_data: false,
    ///     stream_terminated: false,
    ///     force_synchronization: false,
    ///     universe: 1,
    ///     property_values: &[0],
    /// };
    /// let mut datagram = [0; 126];
    /// pack_data(&mut datagram, [7; 16], &packet)?;
    /// // The name begins at byte 44, and the second byte of its é is lost.
    /// datagram[49] = b' ';
    /// assert_eq!(
    ///     parse(&datagram).unwrap_err().to_string(),
    ///     "the name is not UTF-8 (7) in the framing layer: 4 bytes are good"
    /// );
    /// # Ok::<(), ledgerwren::Refusal>(())
    /// ```
    fn fmt(&self, f: &mut Formatter<'_>) -> fmt::Result {
        let row = row(self.number);
        write!(f, "{} ({})", row.words, self.number)?;
        if let Some(layer) = self.layer() {
            write!(f, " in the {layer}")?;
        }
        match (row.value, self.value) {
            (Value::Nothing, _) => Ok(()),
            (Value::Number, value) => write!(f, ": {value}"),
            (Value::GoodBytes, 1) => f.write_str(": 1 byte is good"),
            (Value::GoodBytes, count) => write!(f, ": {count} bytes are good"),
        }
    }
}

impl Error for Refusal {}

/// What is checked; the discriminant is the number of the refusal.
#[derive(Clone, Copy, PartialEq, Eq, Hash, Debug)]
#[non_exhaustive]
#[repr(u8)]
pub enum Check {
    /// A number that this version does not know: the static library is of another one.
    Unknown = 0,
    /// There are too few bytes for the preamble, or for a layer's flags and vector.
    PartTooShort = 1,
    /// A field that has to have a certain value has another, or there are more than 513 values.
    InvalidData = 2,
    /// The flags are not 0x70. Its value: the flags.
    InvalidFlags = 3,
    /// The vector is none of the layer's. Its value: the vector.
    InvalidVector = 4,
    /// The layer's length is not allowed. Its value: the length.
    InvalidLength = 5,
    /// The name's field has no zero.
    NameNotTerminated = 6,
    /// The name is not UTF-8. Its value: how many bytes at the name's front make whole characters.
    NameNotUtf8 = 7,
    /// The priority is above 200. Its value: the priority.
    InvalidPriority = 8,
    /// The synchronization address is out of range. Its value: the address.
    InvalidSyncAddress = 9,
    /// The universe is out of range. Its value: the universe.
    InvalidUniverse = 10,
    /// The page is above the last page.
    InvalidPage = 11,
    /// The universes are not strictly ascending. Its value: the first that is not.
    InvalidUniverseOrder = 12,
    /// The layer is too short for its fields.
    MissingField = 13,
    /// The layer's length is beyond the bytes that there are for it. Its value: the length.
    LengthBeyondPart = 14,
    /// The count of values is not the one that the DMP layer's length says. Its value: the count.
    CountDiffersFromLength = 15,
    /// The discovery layer's length is not the number of bytes that there are for it. Its value: the length.
    LengthDiffersFromPart = 16,
    /// The count of values is 0, so there is no start code.
    NoStartCode = 17,
    /// At writing: the buffer is shorter than the packet.
    BufferTooSmall = 20,
    /// At writing: the name has more than 63 bytes.
    NameTooLong = 21,
    /// At writing: the name has a zero.
    NameHasZero = 22,
    /// At writing: the name is not UTF-8. A `str` always is. Its value: as for
    /// [`NameNotUtf8`](Check::NameNotUtf8).
    WrittenNameNotUtf8 = 23,
    /// At writing: there are more than 513 values or 512 universes.
    TooMany = 24,
    /// At writing: two neighbouring universes are equal.
    EqualUniverses = 25,
    /// At writing: a universe is below the one before it.
    FallingUniverses = 26,
    /// At writing: there are no values, not even a start code.
    NoValues = 27,
    /// The universe has no multicast address. Its value: the universe.
    NoMulticastAddress = 30,
    /// The datagram is no readable discovery packet, or lists more universes than there is room for.
    NoUniversesCopied = 31,
}

/// What a refusal's value is.
#[derive(Clone, Copy, PartialEq, Eq, Debug)]
enum Value {
    /// None: it is always 0.
    Nothing,
    /// The number that failed the check, or whatever a check that is not known here tells.
    Number,
    /// How many bytes at the name's front make whole characters.
    GoodBytes,
}

/// A check, what its refusal's value is, and the words for it.
struct Row {
    check: Check,
    value: Value,
    words: &'static str,
}

const fn tells(check: Check, value: Value, words: &'static str) -> Row {
    Row {
        check,
        value,
        words,
    }
}

/// All checks, a line each. The test `header` holds to the definitions which of them have a value, and
/// the words of those that reading makes.
#[rustfmt::skip]
static CHECKS: [Row; 27] = [
    tells(Check::PartTooShort, Value::Nothing, "there are too few bytes left for its start"),
    tells(Check::InvalidData, Value::Nothing, "a field has a value that is not allowed"),
    tells(Check::InvalidFlags, Value::Number, "the flags are not 0x70"),
    tells(Check::InvalidVector, Value::Number, "the vector is none of the layer's"),
    tells(Check::InvalidLength, Value::Number, "the length is not allowed"),
    tells(Check::NameNotTerminated, Value::Nothing, "the name has no zero behind it"),
    tells(Check::NameNotUtf8, Value::GoodBytes, "the name is not UTF-8"),
    tells(Check::InvalidPriority, Value::Number, "the priority is above 200"),
    tells(Check::InvalidSyncAddress, Value::Number, "the synchronization address is out of range"),
    tells(Check::InvalidUniverse, Value::Number, "the universe is out of range"),
    tells(Check::InvalidPage, Value::Nothing, "the page is above the last page"),
    tells(Check::InvalidUniverseOrder, Value::Number, "the universes are not strictly ascending"),
    tells(Check::MissingField, Value::Nothing, "the layer is too short for its fields"),
    tells(Check::LengthBeyondPart, Value::Number, "the length is beyond the bytes that are left for the layer"),
    tells(Check::CountDiffersFromLength, Value::Number, "the count is not the one that the length says"),
    tells(Check::LengthDiffersFromPart, Value::Number, "the length is not the number of bytes that are left for the layer"),
    tells(Check::NoStartCode, Value::Nothing, "the count is 0, so there is no start code"),
    tells(Check::BufferTooSmall, Value::Nothing, "the buffer is shorter than the packet"),
    tells(Check::NameTooLong, Value::Nothing, "the name has more than 63 bytes"),
    tells(Check::NameHasZero, Value::Nothing, "the name has a zero in it"),
    tells(Check::WrittenNameNotUtf8, Value::GoodBytes, "the name to be written is not UTF-8"),
    tells(Check::TooMany, Value::Nothing, "there are more than 513 values or 512 universes"),
    tells(Check::EqualUniverses, Value::Nothing, "two neighbouring universes are equal"),
    tells(Check::FallingUniverses, Value::Nothing, "a universe is below the one before it"),
    tells(Check::NoValues, Value::Nothing, "there are no values, not even a start code"),
    tells(Check::NoMulticastAddress, Value::Number, "the universe has no multicast address"),
    tells(Check::NoUniversesCopied, Value::Nothing, "there is no readable list of universes, or no room for it"),
];

/// A number that is none of these.
static UNKNOWN: Row = tells(
    Check::Unknown,
    Value::Number,
    "a check that is not known here",
);

fn row(number: u8) -> &'static Row {
    let known = CHECKS.iter().find(|row| row.check.number() == number);
    known.unwrap_or(&UNKNOWN)
}

impl Check {
    /// The refusal's number.
    pub fn number(self) -> u8 {
        self as u8
    }

    fn of(number: u8) -> Check {
        row(number).check
    }

    /// Whether its refusals have a value. Where not, [`Refusal::value`] is 0.
    pub fn has_value(self) -> bool {
        row(self.number()).value != Value::Nothing
    }
}

impl Display for Check {
    fn fmt(&self, f: &mut Formatter<'_>) -> fmt::Result {
        f.write_str(row(self.number()).words)
    }
}

/// The layers of a packet; the discriminant is the place of a refusal.
#[derive(Clone, Copy, PartialEq, Eq, Hash, Debug)]
#[non_exhaustive]
#[repr(u8)]
pub enum Layer {
    /// The preamble, bytes 0 to 15.
    Preamble = 1,
    /// The root layer.
    Root = 2,
    /// The framing layer of data, synchronization or discovery.
    Framing = 3,
    /// The DMP layer, with the values.
    Dmp = 4,
    /// The universe discovery layer.
    Discovery = 5,
    /// The list of universes.
    UniverseList = 6,
}

impl Layer {
    fn of(place: u8) -> Option<Layer> {
        use Layer::*;
        let layers = [Preamble, Root, Framing, Dmp, Discovery, UniverseList];
        layers.into_iter().find(|layer| *layer as u8 == place)
    }
}

impl Display for Layer {
    fn fmt(&self, f: &mut Formatter<'_>) -> fmt::Result {
        f.write_str(match self {
            Layer::Preamble => "preamble",
            Layer::Root => "root layer",
            Layer::Framing => "framing layer",
            Layer::Dmp => "DMP layer",
            Layer::Discovery => "discovery layer",
            Layer::UniverseList => "universe list",
        })
    }
}

#[cfg(test)]
mod tests {
    use super::*;

    fn refusal(number: u8, place: u8, value: u32) -> Refusal {
        Refusal {
            number,
            place,
            value,
        }
    }

    #[test]
    fn check_layer_and_value_are_told() {
        assert_eq!(
            refusal(8, 3, 201).to_string(),
            "the priority is above 200 (8) in the framing layer: 201"
        );
        // A value of 0 is a value where the check has one.
        assert_eq!(
            refusal(9, 3, 0).to_string(),
            "the synchronization address is out of range (9) in the framing layer: 0"
        );
    }

    #[test]
    fn of_a_malformed_name_the_good_bytes_are_told() {
        for row in &CHECKS {
            let malformed = [Check::NameNotUtf8, Check::WrittenNameNotUtf8].contains(&row.check);
            assert_eq!(row.value == Value::GoodBytes, malformed, "{:?}", row.check);
        }
        for (value, words) in [(0, "0 bytes are"), (1, "1 byte is"), (62, "62 bytes are")] {
            assert_eq!(
                refusal(7, 3, value).to_string(),
                format!("the name is not UTF-8 (7) in the framing layer: {words} good")
            );
            assert_eq!(
                refusal(23, 0, value).to_string(),
                format!("the name to be written is not UTF-8 (23): {words} good")
            );
        }
    }

    #[test]
    fn a_cut_datagram_and_a_false_count_have_their_own_words() {
        for (refusal, words) in [
            (
                refusal(1, 2, 0),
                "there are too few bytes left for its start (1) in the root layer",
            ),
            (
                refusal(14, 2, 110),
                "the length is beyond the bytes that are left for the layer (14) in the root layer: 110",
            ),
            (
                refusal(15, 4, 0),
                "the count is not the one that the length says (15) in the DMP layer: 0",
            ),
            (
                refusal(16, 5, 9),
                "the length is not the number of bytes that are left for the layer (16) in the discovery layer: 9",
            ),
        ] {
            assert_eq!(refusal.to_string(), words);
        }
    }

    #[test]
    fn what_is_not_there_is_not_told() {
        for (refusal, words) in [
            (
                refusal(6, 3, 0),
                "the name has no zero behind it (6) in the framing layer",
            ),
            (
                refusal(17, 4, 0),
                "the count is 0, so there is no start code (17) in the DMP layer",
            ),
            (refusal(21, 0, 0), "the name has more than 63 bytes (21)"),
            (
                refusal(27, 0, 0),
                "there are no values, not even a start code (27)",
            ),
            (
                refusal(30, 0, 64000),
                "the universe has no multicast address (30): 64000",
            ),
        ] {
            assert_eq!(refusal.to_string(), words);
        }
    }

    #[test]
    fn a_value_is_told_where_the_check_has_one() {
        for row in CHECKS.iter().chain([&UNKNOWN]) {
            let told = refusal(row.check.number(), 0, 7).to_string();
            assert_eq!(told.contains(": 7"), row.check.has_value(), "{told}");
        }
    }

    #[test]
    fn numbers_and_checks_are_one_to_one() {
        for row in &CHECKS {
            assert_eq!(Check::of(row.check.number()), row.check);
        }
        assert_eq!(Check::of(99), Check::Unknown);
        assert_eq!(
            refusal(99, 4, 15).to_string(),
            "a check that is not known here (99) in the DMP layer: 15"
        );
    }

    #[test]
    fn places_are_layers() {
        let layers: Vec<_> = (1..=6).filter_map(Layer::of).collect();
        let words: Vec<_> = layers.iter().map(Layer::to_string).collect();
        assert_eq!(
            words.join(", "),
            "preamble, root layer, framing layer, DMP layer, discovery layer, universe list"
        );
        assert_eq!((Layer::of(0), Layer::of(7)), (None, None));
    }

    #[test]
    fn zero_is_no_refusal() {
        assert_eq!(refusal(0, 0, 0).unless_none(), Ok(()));
        let refused = refusal(30, 0, 5);
        assert_eq!(refused.unless_none(), Err(refused));
    }
}
