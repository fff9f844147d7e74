//! Refusals: why a payload isn't read, a record isn't written or a builder doesn't build.

use core::fmt;

/// The six kinds of payload.
#[derive(Debug, Clone, Copy, PartialEq, Eq, Hash)]
pub enum Kind {
    /// UE IP Address
    UeIpAddress,
    /// F-TEID
    Fteid,
    /// F-SEID
    Fseid,
    /// Node ID
    NodeId,
    /// Outer Header Creation
    OuterHeaderCreation,
    /// PFD Contents
    PfdContents,
}

impl fmt::Display for Kind {
    fn fmt(&self, f: &mut fmt::Formatter<'_>) -> fmt::Result {
        f.write_str(match self {
            Kind::UeIpAddress => "UE IP Address",
            Kind::Fteid => "F-TEID",
            Kind::Fseid => "F-SEID",
            Kind::NodeId => "Node ID",
            Kind::OuterHeaderCreation => "Outer Header Creation",
            Kind::PfdContents => "PFD Contents",
        })
    }
}

/// A field, by its number in the requirement.
#[derive(Debug, Clone, Copy, PartialEq, Eq, Hash)]
pub struct Field(pub u8);

impl Field {
    /// The payload as a whole: its first bytes, without which nothing is read.
    pub const WHOLE: Field = Field(0);
    /// The IPv4 address.
    pub const IPV4: Field = Field(1);
    /// The IPv6 address.
    pub const IPV6: Field = Field(2);
    /// The IPv6 prefix delegation bits of a UE IP Address.
    pub const DELEGATION_BITS: Field = Field(3);
    /// The IPv6 prefix length of a UE IP Address.
    pub const PREFIX_LENGTH: Field = Field(4);
    /// The choose ID of an F-TEID.
    pub const CHOOSE_ID: Field = Field(5);
    /// The TEID of an Outer Header Creation.
    pub const TEID: Field = Field(6);
    /// The port of an Outer Header Creation.
    pub const PORT: Field = Field(7);
    /// The C-TAG of an Outer Header Creation.
    pub const CTAG: Field = Field(8);
    /// The S-TAG of an Outer Header Creation.
    pub const STAG: Field = Field(9);
    /// The name of a Node ID, and on reading any text of a PFD Contents.
    pub const TEXT: Field = Field(10);
}

impl fmt::Display for Field {
    fn fmt(&self, f: &mut fmt::Formatter<'_>) -> fmt::Result {
        f.write_str(match self.0 {
            0 => "first bytes",
            1 => "IPv4 address",
            2 => "IPv6 address",
            3 => "prefix delegation bits",
            4 => "prefix length",
            5 => "choose ID",
            6 => "TEID",
            7 => "port",
            8 => "C-TAG",
            9 => "S-TAG",
            10 => "text",
            11 => "flow description",
            12 => "URL",
            13 => "domain name",
            14 => "custom PFD content",
            15 => "domain name protocol",
            16 => "list of additional flow descriptions",
            17 => "list of additional URLs",
            18 => "list of additional domain names and protocols",
            number => return write!(f, "field {number}"),
        })
    }
}

/// The reason of a refusal, with its details. The number of each is the requirement's.
#[derive(Debug, Clone, Copy, PartialEq, Eq, Hash)]
pub enum Why {
    /// 1: the payload ends before a field that it must have. Lengths count from the payload's first byte.
    Short {
        /// The field.
        field: Field,
        /// The length up to the end of that field.
        expected: usize,
        /// The payload's length.
        actual: usize,
    },
    /// 2: flags that don't go together.
    Flags {
        /// The whole byte.
        byte: u8,
        /// 1: an address that is given and chosen; 2: delegation bits and a prefix length; 3: one of them without an
        /// IPv6 address; 4: a choose ID without a choice.
        rule: u8,
    },
    /// 3: a Node ID of a type above 2.
    NodeType {
        /// The type.
        byte: u8,
    },
    /// 4: a text that isn't UTF-8. In a PFD Contents it ends where its own length says, whatever bytes are behind it.
    NotUtf8 {
        /// The place in the payload of the first byte behind what is well-formed.
        place: usize,
        /// 0 where the text ends inside a character that more bytes could complete: it was cut. Else 1 to 3, the length
        /// of the bad sequence at `place`. [`Utf8Error::error_len`](core::str::Utf8Error::error_len) says the same,
        /// with `None` for 0.
        bad: usize,
    },
    /// 5: a payload, or the texts of a record, above 65,535 bytes.
    InputTooLong {
        /// The length. Of texts it is that of all together, each entry of a list with its two bytes of length.
        length: usize,
    },
    /// 6: a text or a list that no record has. Texts here are Rust's own, so it doesn't occur.
    BadText {
        /// The field.
        field: Field,
    },
    /// 7: the written form would pass 65,535 bytes.
    OutputTooLong,
    /// 8: the output is shorter than the written form.
    NoRoom {
        /// The length of the written form.
        needed: usize,
    },
    /// 9: a builder's rule is broken.
    Unbuilt {
        /// 1: IPv4 given and chosen; 2: IPv6 likewise; 3: no address and no choice; 4: a choose ID without a choice; 5:
        /// no TEID and no choice; 6: a PFD Contents without any field.
        rule: u8,
    },
}

/// A refusal: of which kind of payload, and why.
#[derive(Debug, Clone, Copy, PartialEq, Eq, Hash)]
pub struct Refusal {
    /// What was to be read, written or built.
    pub kind: Kind,
    /// The reason, with its details.
    pub why: Why,
}

impl Refusal {
    /// The refusal that the archive's number and values stand for.
    pub(crate) fn told(kind: Kind, number: u64, values: [u64; 3]) -> Self {
        let [a, b, c] = values;
        let why = match number {
            1 => Why::Short { field: Field(a as u8), expected: b as usize, actual: c as usize },
            2 => Why::Flags { byte: a as u8, rule: b as u8 },
            3 => Why::NodeType { byte: a as u8 },
            4 => Why::NotUtf8 { place: a as usize, bad: b as usize },
            5 => Why::InputTooLong { length: a as usize },
            6 => Why::BadText { field: Field(a as u8) },
            7 => Why::OutputTooLong,
            8 => Why::NoRoom { needed: a as usize },
            9 => Why::Unbuilt { rule: a as u8 },
            _ => panic!("the archive answers {number}, which no archive of this layout version does"),
        };
        Refusal { kind, why }
    }

    /// The requirement's number of the reason, 1 to 9.
    pub const fn number(&self) -> u8 {
        match self.why {
            Why::Short { .. } => 1,
            Why::Flags { .. } => 2,
            Why::NodeType { .. } => 3,
            Why::NotUtf8 { .. } => 4,
            Why::InputTooLong { .. } => 5,
            Why::BadText { .. } => 6,
            Why::OutputTooLong => 7,
            Why::NoRoom { .. } => 8,
            Why::Unbuilt { .. } => 9,
        }
    }

    /// The details as the requirement's table orders them, 0 where it names none.
    pub const fn values(&self) -> [u64; 3] {
        match self.why {
            Why::Short { field, expected, actual } => [field.0 as u64, expected as u64, actual as u64],
            Why::Flags { byte, rule } => [byte as u64, rule as u64, 0],
            Why::NodeType { byte } => [byte as u64, 0, 0],
            Why::NotUtf8 { place, bad } => [place as u64, bad as u64, 0],
            Why::InputTooLong { length } => [length as u64, 0, 0],
            Why::BadText { field } => [field.0 as u64, 0, 0],
            Why::OutputTooLong => [0; 3],
            Why::NoRoom { needed } => [needed as u64, 0, 0],
            Why::Unbuilt { rule } => [rule as u64, 0, 0],
        }
    }
}

impl fmt::Display for Refusal {
    fn fmt(&self, f: &mut fmt::Formatter<'_>) -> fmt::Result {
        write!(f, "{}: {}", self.kind, self.why)
    }
}

impl fmt::Display for Why {
    fn fmt(&self, f: &mut fmt::Formatter<'_>) -> fmt::Result {
        match self {
            Why::Short { field: Field::WHOLE, expected, actual } => {
                write!(f, "the payload has {}, and needs at least {expected}", bytes(actual))
            }
            Why::Short { field, expected, actual } => {
                write!(f, "the payload has {}, and its {field} would end at byte {expected}", bytes(actual))
            }
            Why::Flags { byte, rule } => write!(f, "the flags 0x{byte:02X} {}", flags_rule(*rule)),
            Why::NodeType { byte } => {
                write!(f, "type {byte} is neither 0 (IPv4) nor 1 (IPv6) nor 2 (a name)")
            }
            Why::NotUtf8 { place, bad: 0 } => {
                write!(f, "the text was cut inside a character, which begins at byte {place} of the payload")
            }
            Why::NotUtf8 { place, bad } => {
                match bad {
                    1 => write!(f, "byte {place}")?,
                    2 => write!(f, "bytes {place} and {}", place.saturating_add(1))?,
                    _ => write!(f, "bytes {place} to {}", place.saturating_add(bad - 1))?,
                }
                f.write_str(" of the payload can't stand there in UTF-8")
            }
            Why::InputTooLong { length } => write!(f, "{length} bytes are too many, the limit is 65535"),
            Why::BadText { field } => write!(f, "the {field} isn't a text that can be written"),
            Why::OutputTooLong => f.write_str("the written form would have more than 65535 bytes"),
            Why::NoRoom { needed } => {
                write!(f, "the output is too short, the written form has {}", bytes(needed))
            }
            Why::Unbuilt { rule } => f.write_str(builder_rule(*rule)),
        }
    }
}

/// A number of bytes, in the singular where it is one.
fn bytes(count: &usize) -> impl fmt::Display + '_ {
    struct Bytes<'a>(&'a usize);
    impl fmt::Display for Bytes<'_> {
        fn fmt(&self, f: &mut fmt::Formatter<'_>) -> fmt::Result {
            let Bytes(count) = self;
            write!(f, "{count} {}", if **count == 1 { "byte" } else { "bytes" })
        }
    }
    Bytes(count)
}

fn flags_rule(rule: u8) -> &'static str {
    match rule {
        1 => "give an address and ask to choose one of the same family",
        2 => "announce both prefix delegation bits and a prefix length",
        3 => "announce prefix delegation bits or a prefix length, and no IPv6 address is given or chosen",
        4 => "announce a choose ID, but don't ask to choose",
        _ => "don't go together",
    }
}

fn builder_rule(rule: u8) -> &'static str {
    match rule {
        1 => "an IPv4 address is given, and also to be chosen",
        2 => "an IPv6 address is given, and also to be chosen",
        3 => "no address is given, and none is to be chosen",
        4 => "a choose ID is given, but no address is to be chosen",
        5 => "the TEID is missing, and no address is to be chosen",
        6 => "no field is set",
        _ => "a rule of the builder is broken",
    }
}

impl core::error::Error for Refusal {}
