//! The sentence, the number and the values of each refusal, as they come from the crate.

use std::error::Error;
use std::net::{Ipv4Addr, Ipv6Addr};
use yerondatt::error::{Field, Kind, Refusal, Why};
use yerondatt::ie::f_teid::Fteid;
use yerondatt::ie::fseid::Fseid;
use yerondatt::ie::node_id::NodeId;
use yerondatt::ie::outer_header_creation::OuterHeaderCreation;
use yerondatt::ie::pfd_contents::PfdContents;
use yerondatt::ie::ue_ip_address::UeIpAddress;

fn says<T: std::fmt::Debug>(result: Result<T, Refusal>, number: u8, values: [u64; 3], sentence: &str) {
    let refusal = result.expect_err("a refusal");
    assert_eq!((refusal.number(), refusal.values()), (number, values), "{sentence}");
    assert_eq!(refusal.to_string(), sentence);
}

#[test]
fn of_readers() {
    says(UeIpAddress::unmarshal(&[]), 1, [0, 1, 0], "UE IP Address: the payload has 0 bytes, and needs at least 1");
    says(Fseid::unmarshal(&[2]), 1, [0, 9, 1], "F-SEID: the payload has 1 byte, and needs at least 9");
    let short = "UE IP Address: the payload has 1 byte, and its prefix delegation bits would end at byte 2";
    says(UeIpAddress::unmarshal(&[0x28]), 1, [3, 2, 1], short);
    let short = "Outer Header Creation: the payload has 3 bytes, and its C-TAG would end at byte 5";
    says(OuterHeaderCreation::unmarshal(&[0x40, 0, 0]), 1, [8, 5, 3], short);
    let short = "PFD Contents: the payload has 4 bytes, and its text would end at byte 65539";
    says(PfdContents::unmarshal(&[1, 0, 0xFF, 0xFF]), 1, [10, 65_539, 4], short);
    let type_9 = "Node ID: type 9 is neither 0 (IPv4) nor 1 (IPv6) nor 2 (a name)";
    says(NodeId::unmarshal(&[9]), 3, [9, 0, 0], type_9);
    let long = "F-TEID: 65536 bytes are too many, the limit is 65535";
    says(Fteid::unmarshal(&[0; 65_536]), 5, [65_536, 0, 0], long);
}

/// A name that was cut, and bad sequences of one, two and three bytes.
#[test]
fn of_names() {
    let cut = "Node ID: the text was cut inside a character, which begins at byte 2 of the payload";
    says(NodeId::unmarshal(&[2, 0x61, 0xC3]), 4, [2, 0, 0], cut);
    let cut = "Node ID: the text was cut inside a character, which begins at byte 1 of the payload";
    says(NodeId::unmarshal(&[2, 0xF0, 0x90, 0x80]), 4, [1, 0, 0], cut);
    let one = "Node ID: byte 2 of the payload can't stand there in UTF-8";
    says(NodeId::unmarshal(&[2, 0x61, 0xFF]), 4, [2, 1, 0], one);
    let two = "Node ID: bytes 1 and 2 of the payload can't stand there in UTF-8";
    says(NodeId::unmarshal(&[2, 0xF0, 0x90, 0x41]), 4, [1, 2, 0], two);
    says(NodeId::unmarshal(&[2, 0xE1, 0x80, 0x41]), 4, [1, 2, 0], two);
    let three = "Node ID: bytes 1 to 3 of the payload can't stand there in UTF-8";
    says(NodeId::unmarshal(&[2, 0xF1, 0x80, 0x80, 0x41]), 4, [1, 3, 0], three);
}

/// No byte could complete these, though they end with the text: the second byte never follows the first.
#[test]
fn of_names_that_end_with_a_bad_sequence() {
    let one = "Node ID: byte 1 of the payload can't stand there in UTF-8";
    says(NodeId::unmarshal(&[2, 0xF0, 0x8F]), 4, [1, 1, 0], one);
    says(NodeId::unmarshal(&[2, 0xED, 0xA0]), 4, [1, 1, 0], one);
}

#[test]
fn of_texts() {
    let cut = "PFD Contents: the text was cut inside a character, which begins at byte 4 of the payload";
    says(PfdContents::unmarshal(&[1, 0, 0, 1, 0xC3]), 4, [4, 0, 0], cut);
    let one = "PFD Contents: byte 5 of the payload can't stand there in UTF-8";
    says(PfdContents::unmarshal(&[1, 0, 0, 2, 0x61, 0xFF]), 4, [5, 1, 0], one);
    let two = "PFD Contents: bytes 4 and 5 of the payload can't stand there in UTF-8";
    says(PfdContents::unmarshal(&[1, 0, 0, 3, 0xE1, 0x80, 0x41]), 4, [4, 2, 0], two);
    let three = "PFD Contents: bytes 4 to 6 of the payload can't stand there in UTF-8";
    says(PfdContents::unmarshal(&[1, 0, 0, 4, 0xF1, 0x80, 0x80, 0x41]), 4, [4, 3, 0], three);
}

/// A text ends where its own length says. The bytes behind it don't make it a broken one, nor complete it.
#[test]
fn of_texts_with_bytes_behind() {
    let cut = "PFD Contents: the text was cut inside a character, which begins at byte 4 of the payload";
    says(PfdContents::unmarshal(&[3, 0, 0, 1, 0xC3, 0, 1, 0x61]), 4, [4, 0, 0], cut);
    says(PfdContents::unmarshal(&[1, 0, 0, 1, 0xC3, 0xA9]), 4, [4, 0, 0], cut);
    let second = "PFD Contents: the text was cut inside a character, which begins at byte 8 of the payload";
    says(PfdContents::unmarshal(&[3, 0, 0, 1, 0x61, 0, 2, 0x61, 0xC3]), 4, [8, 0, 0], second);
    let entry = "PFD Contents: byte 7 of the payload can't stand there in UTF-8";
    says(PfdContents::unmarshal(&[0x40, 0, 0, 1, 0x61, 0, 1, 0xFF]), 4, [7, 1, 0], entry);
}

#[test]
fn of_flags() {
    let chosen = "UE IP Address: the flags 0x12 give an address and ask to choose one of the same family";
    says(UeIpAddress::unmarshal(&[0x12]), 2, [0x12, 1, 0], chosen);
    let both = "UE IP Address: the flags 0x48 announce both prefix delegation bits and a prefix length";
    says(UeIpAddress::unmarshal(&[0x48]), 2, [0x48, 2, 0], both);
    let without = "UE IP Address: the flags 0x08 announce prefix delegation bits or a prefix length, \
                   and no IPv6 address is given or chosen";
    says(UeIpAddress::unmarshal(&[0x08]), 2, [0x08, 3, 0], without);
    let id = "F-TEID: the flags 0xF8 announce a choose ID, but don't ask to choose";
    says(Fteid::unmarshal(&[0xF8]), 2, [0xF8, 4, 0], id);
}

#[test]
fn of_writers() {
    let long = "Node ID: 65536 bytes are too many, the limit is 65535";
    says(NodeId::FQDN("a".repeat(65_536)).try_marshal(), 5, [65_536, 0, 0], long);
    let wide = "Node ID: the written form would have more than 65535 bytes";
    says(NodeId::FQDN("a".repeat(65_535)).try_marshal(), 7, [0, 0, 0], wide);
    let room = "Node ID: the output is too short, the written form has 1 byte";
    says(NodeId::new_fqdn("").marshal_to(&mut []), 8, [1, 0, 0], room);
    let room = "F-SEID: the output is too short, the written form has 9 bytes";
    says(Fseid::new(5u64, None, None).marshal_to(&mut [0; 8]), 8, [9, 0, 0], room);
}

#[test]
fn of_builders() {
    let (v4, v6) = (Ipv4Addr::LOCALHOST, Ipv6Addr::LOCALHOST);
    let builder = Fteid::builder;
    let given = "F-TEID: an IPv4 address is given, and also to be chosen";
    says(builder().ipv4(v4).choose_ipv4().build(), 9, [1, 0, 0], given);
    let given = "F-TEID: an IPv6 address is given, and also to be chosen";
    says(builder().ipv6(v6).choose_ipv6().build(), 9, [2, 0, 0], given);
    let none = "F-TEID: no address is given, and none is to be chosen";
    says(builder().teid(1u32).build(), 9, [3, 0, 0], none);
    let id = "F-TEID: a choose ID is given, but no address is to be chosen";
    says(builder().ipv4(v4).choose_id(1).build(), 9, [4, 0, 0], id);
    let teid = "F-TEID: the TEID is missing, and no address is to be chosen";
    says(builder().ipv4(v4).build(), 9, [5, 0, 0], teid);
    says(PfdContents::builder().build(), 9, [6, 0, 0], "PFD Contents: no field is set");
    let long = "PFD Contents: 65536 bytes are too many, the limit is 65535";
    says(PfdContents::url("a".repeat(65_536)), 5, [65_536, 0, 0], long);
}

/// Refusal 6 doesn't occur with Rust's own texts; its sentence is here for the sake of the other users of the type.
#[test]
fn of_a_text_that_no_record_has() {
    let refusal = Refusal { kind: Kind::PfdContents, why: Why::BadText { field: Field(12) } };
    says::<()>(Err(refusal), 6, [12, 0, 0], "PFD Contents: the URL isn't a text that can be written");
}

#[test]
fn are_errors() {
    let error: Box<dyn Error + Send + Sync> = Box::new(Fseid::unmarshal(&[]).unwrap_err());
    assert!(error.source().is_none());
    assert!(error.downcast_ref::<Refusal>().is_some());
}
