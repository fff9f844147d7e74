//! The requirement's sample payloads, its limits, and what a record does that can't be written.

use std::net::{Ipv4Addr, Ipv6Addr};
use yerondatt::error::{Field, Kind, Refusal, Why};
use yerondatt::ie::f_teid::Fteid;
use yerondatt::ie::fseid::Fseid;
use yerondatt::ie::node_id::NodeId;
use yerondatt::ie::outer_header_creation::OuterHeaderCreation;
use yerondatt::ie::pfd_contents::PfdContents;
use yerondatt::ie::ue_ip_address::UeIpAddress;
use yerondatt::types::{Seid, Teid};

const ADDRESS: Ipv4Addr = Ipv4Addr::new(192, 0, 2, 1);
const ADDRESS6: Ipv6Addr = Ipv6Addr::new(0x2001, 0xDB8, 0, 0, 0, 0, 0, 1);

fn refused<T>(kind: Kind, why: Why) -> Result<T, Refusal> {
    Err(Refusal { kind, why })
}

#[test]
fn ue_ip_address() {
    let refused = |why| refused(Kind::UeIpAddress, why);
    let (plain, used) = UeIpAddress::unmarshal_used(&[0x02, 192, 0, 2, 1, 0xFF]).unwrap();
    assert_eq!((plain.ipv4_address, used), (Some(ADDRESS), 5));
    assert_eq!(UeIpAddress::unmarshal(&[0x82, 192, 0, 2, 1]).unwrap().marshal(), [0x02, 192, 0, 2, 1]);
    assert_eq!(UeIpAddress::unmarshal(&[0x12]), refused(Why::Flags { byte: 0x12, rule: 1 }));
    assert_eq!(UeIpAddress::unmarshal(&[0x48]), refused(Why::Flags { byte: 0x48, rule: 2 }));
    assert_eq!(UeIpAddress::unmarshal(&[0x40]), refused(Why::Flags { byte: 0x40, rule: 3 }));
    let (prefix, used) = UeIpAddress::unmarshal_used(&[0x60, 64]).unwrap();
    assert_eq!((prefix.ipv6_prefix_length, used), (Some(64), 2));
    let short = Why::Short { field: Field::IPV4, expected: 5, actual: 4 };
    assert_eq!(UeIpAddress::unmarshal(&[0x02, 192, 0, 2]), refused(short));
    assert_eq!(UeIpAddress::unmarshal(&[0]), Ok(UeIpAddress::new(None, None)));
}

#[test]
fn f_teid() {
    assert_eq!(Fteid::unmarshal_used(&[0x04]).unwrap().1, 1);
    assert_eq!(Fteid::unmarshal(&[0x08]), refused(Kind::Fteid, Why::Flags { byte: 8, rule: 4 }));
    let short = Why::Short { field: Field::CHOOSE_ID, expected: 2, actual: 1 };
    assert_eq!(Fteid::unmarshal(&[0x0C]), refused(Kind::Fteid, short));
    assert!(Fteid::unmarshal(&[0, 0, 0, 0, 7]).is_ok());
    assert!(!Fteid::strict(&[0, 0, 0, 0, 7]));
    assert!(Fteid::strict(&[0x05]));
}

/// An address beside a choice of the other family stays in the record, and isn't written.
#[test]
fn f_teid_with_a_choice_and_an_address() {
    let built = Fteid::builder().ipv4(ADDRESS).choose_ipv6().build().unwrap();
    assert_eq!(built.ipv4_address, Some(ADDRESS));
    assert_eq!(built.marshal(), [0x07]);
}

/// Every choice of settings, against the rules as the requirement orders them.
#[test]
fn f_teid_builder() {
    for settings in 0u8..64 {
        let set = |bit: u8| settings >> bit & 1 == 1;
        let (teid, v4, v6, ch4, ch6, id) = (set(0), set(1), set(2), set(3), set(4), set(5));
        let mut builder = Fteid::builder();
        builder = if teid { builder.teid(7u32) } else { builder };
        builder = if v4 { builder.ipv4(ADDRESS) } else { builder };
        builder = if v6 { builder.ipv6(ADDRESS6) } else { builder };
        builder = if ch4 { builder.choose_ipv4() } else { builder };
        builder = if ch6 { builder.choose_ipv6() } else { builder };
        builder = if id { builder.choose_id(9) } else { builder };
        let rule = match (v4 && ch4, v6 && ch6, v4 || v6, ch4 || ch6) {
            (true, _, _, _) => 1,
            (_, true, _, _) => 2,
            (_, _, false, false) => 3,
            (_, _, _, false) if id => 4,
            (_, _, _, false) if !teid => 5,
            _ => 0,
        };
        let expected = Fteid {
            v4: v4 || ch4,
            v6: v6 || ch6,
            ch: ch4 || ch6,
            chid: id,
            teid: Teid(if ch4 || ch6 { 0 } else { 7 }),
            ipv4_address: v4.then_some(ADDRESS),
            ipv6_address: v6.then_some(ADDRESS6),
            choose_id: if id { 9 } else { 0 },
        };
        match rule {
            0 => assert_eq!(builder.build(), Ok(expected)),
            rule => assert_eq!(builder.build(), refused(Kind::Fteid, Why::Unbuilt { rule })),
        }
    }
}

#[test]
fn fseid() {
    let payload = [0x02, 0, 0, 0, 0, 0, 0, 0, 5, 192, 0, 2, 1];
    let (read, used) = Fseid::unmarshal_used(&payload).unwrap();
    assert_eq!((read, used), (Fseid::new(5u64, Some(ADDRESS), None), 13));
    assert_eq!(read.seid, Seid(5));
    assert!(Fseid::strict(&payload));
}

#[test]
fn node_id() {
    assert_eq!(NodeId::unmarshal_used(&[2]), Ok((NodeId::new_fqdn(""), 1)));
    assert_eq!(NodeId::unmarshal(&[3]), refused(Kind::NodeId, Why::NodeType { byte: 3 }));
    let cut = Why::NotUtf8 { place: 2, bad: 0 };
    assert_eq!(NodeId::unmarshal(&[2, 0x61, 0xC3]), refused(Kind::NodeId, cut));
    let broken = Why::NotUtf8 { place: 2, bad: 1 };
    assert_eq!(NodeId::unmarshal(&[2, 0x61, 0xFF]), refused(Kind::NodeId, broken));
}

/// The high four bits of the first byte are spare: the read refuses them, and the strict verdict passes over them.
#[test]
fn node_id_with_spare_bits() {
    let vendors = [0x10, 192, 0, 2, 1];
    assert_eq!(NodeId::unmarshal(&vendors), refused(Kind::NodeId, Why::NodeType { byte: 0x10 }));
    assert!(NodeId::strict(&vendors));
    assert!(!NodeId::strict(&vendors[..4]));
    assert!(NodeId::strict(b"\xF2upf"));
    assert!(!NodeId::strict(b"\xF2up\xC3"));
    for first in 0..=0xFF {
        assert_eq!(NodeId::strict(&[first, 192, 0, 2, 1]), first & 0x0F == 0, "{first:02X}");
    }
}

#[test]
fn outer_header_creation() {
    let read = OuterHeaderCreation::unmarshal(&[0x01, 0xFF, 0, 0, 0, 7, 192, 0, 2, 1]).unwrap();
    assert_eq!(read, OuterHeaderCreation::gtpu_ipv4(7u32, ADDRESS));
    assert_eq!(read.marshal(), [0x01, 0x00, 0, 0, 0, 7, 192, 0, 2, 1]);
    assert_eq!(OuterHeaderCreation::unmarshal_used(&[0, 0]).unwrap().1, 2);
}

#[test]
fn pfd_contents() {
    let (read, used) = PfdContents::unmarshal_used(&[0x01, 0, 5]).unwrap();
    assert_eq!((read.flow_description.as_ref(), used), (None, 2));
    assert_eq!(read.marshal(), [0x01, 0]);
    assert!(!PfdContents::strict(&[0x01, 0, 5]));
    let lists = PfdContents::unmarshal(&[0x60, 0, 0, 1, 0x61, 0, 1, 0x62, 0, 1, 0x63]).unwrap();
    assert_eq!(lists.additional_flow_description, ["a"]);
    assert_eq!(lists.additional_url, ["b", "c"]);
    let short = Why::Short { field: Field::TEXT, expected: 6, actual: 5 };
    assert_eq!(PfdContents::unmarshal(&[0x01, 0, 0, 2, 0x61]), refused(Kind::PfdContents, short));
    assert_eq!(PfdContents::unmarshal(&[0x20, 0, 0, 0]).unwrap().additional_flow_description, [""]);
    let cut = Why::NotUtf8 { place: 4, bad: 0 };
    assert_eq!(PfdContents::unmarshal(&[0x01, 0, 0, 1, 0xC3]), refused(Kind::PfdContents, cut));
}

/// A slip of students: a record with two flow texts and one URL is read back as one and two.
#[test]
fn two_flow_texts_and_a_url() {
    let built =
        PfdContents::builder().additional_flow_descriptions(["a", "b"]).add_additional_url("c").build().unwrap();
    let read = PfdContents::unmarshal(&built.marshal()).unwrap();
    assert_eq!(read.additional_flow_description, ["a"]);
    assert_eq!(read.additional_url, ["b", "c"]);
}

#[test]
fn identifiers() {
    let (seid, teid) = (Seid::new(0xAB), Teid::from(0xCDu32));
    assert_eq!(format!("{seid} {seid:x} {seid:#X}"), "0x00000000000000AB ab 0xAB");
    assert_eq!(format!("{teid} {teid:x} {teid:#X}"), "0x000000CD cd 0xCD");
    assert_eq!((u64::from(seid), *seid, seid.value()), (0xAB, 0xAB, 0xAB));
    assert_eq!((u32::from(teid), *teid, teid.value()), (0xCD, 0xCD, 0xCD));
    assert_eq!((Seid::default(), Teid::default()), (Seid(0), Teid(0)));
}

// ---- limits

fn letters(count: usize) -> String {
    "a".repeat(count)
}

#[test]
fn a_payload_above_the_limit_is_refused() {
    let name = |count| [&[2], letters(count).as_bytes()].concat();
    assert_eq!(NodeId::unmarshal(&name(65_534)), Ok(NodeId::FQDN(letters(65_534))));
    assert_eq!(NodeId::unmarshal(&name(65_535)), refused(Kind::NodeId, Why::InputTooLong { length: 65_536 }));
    assert_eq!(Fseid::unmarshal(&[0; 65_536]), refused(Kind::Fseid, Why::InputTooLong { length: 65_536 }));
    assert!(Fseid::unmarshal(&[0; 65_535]).is_ok());
}

#[test]
fn a_name_above_the_limit_is_refused() {
    assert_eq!(NodeId::FQDN(letters(65_534)).marshal().len(), 65_535);
    assert_eq!(NodeId::FQDN(letters(65_535)).try_marshal(), refused(Kind::NodeId, Why::OutputTooLong));
    let long = NodeId::FQDN(letters(65_536));
    assert_eq!(long.try_marshal(), refused(Kind::NodeId, Why::InputTooLong { length: 65_536 }));
    let mut out = [0xA5; 8];
    assert_eq!(long.marshal_to(&mut out), refused(Kind::NodeId, Why::InputTooLong { length: 65_536 }));
    assert_eq!(out, [0xA5; 8]);
}

#[test]
#[should_panic(expected = "Node ID: the written form would have more than 65535 bytes")]
fn marshal_panics_where_a_name_is_too_wide() {
    NodeId::FQDN(letters(65_535)).marshal();
}

#[test]
#[should_panic(expected = "PFD Contents: 65536 bytes are too many, the limit is 65535")]
fn marshal_panics_where_a_text_is_too_long() {
    let built = PfdContents::url("").unwrap();
    PfdContents { url: Some(letters(65_536)), ..built }.marshal();
}

#[test]
fn pfd_contents_above_the_limit_are_refused() {
    let pfd = Kind::PfdContents;
    assert_eq!(PfdContents::url(letters(65_531)).unwrap().marshal().len(), 65_535);
    assert_eq!(PfdContents::url(letters(65_532)).unwrap().try_marshal(), refused(pfd, Why::OutputTooLong));
    assert_eq!(PfdContents::url(letters(65_536)), refused(pfd, Why::InputTooLong { length: 65_536 }));
    let entries = |last| PfdContents::builder().add_additional_url("").add_additional_url(letters(last)).build();
    assert_eq!(entries(65_529).unwrap().marshal().len(), 65_535);
    assert_eq!(entries(65_531).unwrap().try_marshal(), refused(pfd, Why::OutputTooLong));
    assert_eq!(entries(65_532), refused(pfd, Why::InputTooLong { length: 65_536 }));
}

/// An entry whose length has no two bytes: it isn't cut.
#[test]
fn an_entry_above_the_limit_is_refused() {
    let plain = PfdContents::builder().add_additional_url("").build().unwrap();
    let long = PfdContents { additional_url: vec![letters(70_000), letters(3)], ..plain };
    assert_eq!(long.try_marshal(), refused(Kind::PfdContents, Why::InputTooLong { length: 70_007 }));
}

#[test]
fn an_output_without_room_stays_as_it_was() {
    let fseid = Fseid::new(5u64, Some(ADDRESS), None);
    let mut out = [0xA5; 12];
    assert_eq!(fseid.marshal_to(&mut out), refused(Kind::Fseid, Why::NoRoom { needed: 13 }));
    assert_eq!(out, [0xA5; 12]);
    assert_eq!(fseid.marshal_to(&mut []), refused(Kind::Fseid, Why::NoRoom { needed: 13 }));
}
