//! The records of record lines: plain ones, constructors and builders.

use crate::line::{number, numbers, slice, taken_apart, text_bytes, value, Token};
use crate::record::Record;
use std::net::{Ipv4Addr, Ipv6Addr};
use yerondatt::ie::f_teid::{Fteid, FteidBuilder};
use yerondatt::ie::fseid::Fseid;
use yerondatt::ie::node_id::NodeId;
use yerondatt::ie::outer_header_creation::{OuterHeaderCreation, OuterHeaderCreationFlags};
use yerondatt::ie::pfd_contents::{PfdContents, PfdContentsBuilder};
use yerondatt::ie::ue_ip_address::UeIpAddress;
use yerondatt::types::{Seid, Teid};
use yerondatt::Refusal;

/// Why a line has no record.
#[derive(Debug)]
pub enum Fault {
    Refused(Refusal),
    /// A text isn't UTF-8 or isn't there, so no `String` has it.
    NotUtf8,
}

impl From<Refusal> for Fault {
    fn from(refusal: Refusal) -> Self {
        Fault::Refused(refusal)
    }
}

type Made<T> = Result<T, Fault>;

pub fn record(line: &str) -> Made<Record> {
    let (head, tokens) = taken_apart(line);
    let (letter, call) = head.split_once('.').unwrap_or((head, ""));
    Ok(match letter {
        "U" => Record::U(ue_ip_address(call, &tokens)),
        "F" if call == "build" => Record::F(fteid_built(&tokens)?),
        "F" => Record::F(fteid(call, &tokens)),
        "S" => Record::S(fseid(call, &tokens)),
        "N" => Record::N(node_id(call, &tokens)?),
        "O" => Record::O(outer_header_creation(call, &tokens)),
        "P" if call == "build" => Record::P(pfd_built(&tokens)?),
        "P" if call == "raw_build" => Record::P(pfd_raw_built(&tokens)?),
        "P" => Record::P(pfd_contents(call, &tokens)?),
        _ => panic!("a letter of a kind: {line}"),
    })
}

fn ipv4(digits: &str) -> Ipv4Addr {
    Ipv4Addr::from(u32::from_str_radix(digits, 16).expect("hex"))
}

fn ipv6(digits: &str) -> Ipv6Addr {
    Ipv6Addr::from(u128::from_str_radix(digits, 16).expect("hex"))
}

fn addresses(tokens: &[Token]) -> (Option<Ipv4Addr>, Option<Ipv6Addr>) {
    (value(tokens, "v4").map(ipv4), value(tokens, "v6").map(ipv6))
}

fn given(tokens: &[Token], key: &str) -> Option<u64> {
    value(tokens, key).map(|_| number(tokens, key))
}

/// The flag of each bit of a number.
fn bits(number: u64) -> impl Fn(u8) -> bool {
    move |bit| number >> bit & 1 == 1
}

fn ue_ip_address(call: &str, tokens: &[Token]) -> UeIpAddress {
    let (ipv4_address, ipv6_address) = addresses(tokens);
    match call {
        "new" => return UeIpAddress::new(ipv4_address, ipv6_address),
        "choose" => return UeIpAddress::choose(value(tokens, "ch4").is_some(), value(tokens, "ch6").is_some()),
        _ => assert_eq!(call, ""),
    }
    let flag = bits(number(tokens, "flags"));
    UeIpAddress {
        v6: flag(0),
        v4: flag(1),
        source_destination: flag(2),
        ipv6_prefix_delegation: flag(3),
        choose_ipv4: flag(4),
        choose_ipv6: flag(5),
        ipv6_prefix_length_present: flag(6),
        ipv4_address,
        ipv6_address,
        ipv6_prefix_delegation_bits: given(tokens, "db").map(|bits| bits as u8),
        ipv6_prefix_length: given(tokens, "pl").map(|length| length as u8),
    }
}

fn fteid(call: &str, tokens: &[Token]) -> Fteid {
    let flag = bits(number(tokens, "flags"));
    let (v4, v6, ch, chid) = (flag(0), flag(1), flag(2), flag(3));
    let teid = Teid(number(tokens, "teid") as u32);
    let choose_id = number(tokens, "cid") as u8;
    let (ipv4_address, ipv6_address) = addresses(tokens);
    match (call, ipv4_address, ipv6_address) {
        ("ipv4", Some(a), None) => Fteid::ipv4(teid, a),
        ("ipv6", None, Some(a)) => Fteid::ipv6(teid, a),
        ("dual_stack", Some(a), Some(b)) => Fteid::dual_stack(teid, a, b),
        ("choose_ipv4", None, None) => Fteid::choose_ipv4(teid),
        ("choose_ipv6", None, None) => Fteid::choose_ipv6(teid),
        ("choose_dual_stack", None, None) => Fteid::choose_dual_stack(teid),
        ("new", a, b) => Fteid::new(v4, v6, teid, a, b, choose_id),
        ("new_with_choose", a, b) => Fteid::new_with_choose(v4, v6, ch, chid, teid, a, b, choose_id),
        ("", _, _) => Fteid { v4, v6, ch, chid, teid, ipv4_address, ipv6_address, choose_id },
        _ => panic!("a call of F-TEID: {call}"),
    }
}

fn fteid_built(tokens: &[Token]) -> Made<Fteid> {
    let mut builder = FteidBuilder::new();
    for token in tokens {
        let as_number = || u32::from_str_radix(token.value, 16).expect("hex");
        builder = match token.key {
            "teid" => builder.teid(as_number()),
            "v4" => builder.ipv4(ipv4(token.value)),
            "v6" => builder.ipv6(ipv6(token.value)),
            "dual" => {
                let (v4, v6) = token.value.split_once(',').expect("two addresses");
                builder.dual_stack(ipv4(v4), ipv6(v6))
            }
            "ch4" => builder.choose_ipv4(),
            "ch6" => builder.choose_ipv6(),
            "chdual" => builder.choose_dual_stack(),
            "cid" => builder.choose_id(as_number() as u8),
            key => panic!("a call of the builder: {key}"),
        };
    }
    Ok(builder.build()?)
}

fn fseid(call: &str, tokens: &[Token]) -> Fseid {
    let seid = Seid(number(tokens, "seid"));
    let (ipv4_address, ipv6_address) = addresses(tokens);
    if call == "new" {
        return Fseid::new(seid, ipv4_address, ipv6_address);
    }
    assert_eq!(call, "");
    let flag = bits(number(tokens, "flags"));
    Fseid { v6: flag(0), v4: flag(1), seid, ipv4_address, ipv6_address }
}

fn text(value: &str) -> Made<String> {
    String::from_utf8(text_bytes(value)).map_err(|_| Fault::NotUtf8)
}

/// Texts with commas between them; nothing is the empty list.
fn texts(value: &str) -> Made<Vec<String>> {
    value.split(',').filter(|_| !value.is_empty()).map(text).collect()
}

fn optional_text(tokens: &[Token], key: &str) -> Made<Option<String>> {
    value(tokens, key).map(text).transpose()
}

fn node_id(call: &str, tokens: &[Token]) -> Made<NodeId> {
    Ok(match (call, addresses(tokens), optional_text(tokens, "name")?) {
        ("", (Some(a), None), None) => NodeId::IPv4(a),
        ("", (None, Some(a)), None) => NodeId::IPv6(a),
        ("", (None, None), Some(name)) => NodeId::FQDN(name),
        ("new_ipv4", (Some(a), None), None) => NodeId::new_ipv4(a),
        ("new_ipv6", (None, Some(a)), None) => NodeId::new_ipv6(a),
        ("new_fqdn", (None, None), Some(name)) => NodeId::new_fqdn(&name),
        _ => panic!("a call of Node ID: {call}"),
    })
}

fn flag_set(flags: u64) -> OuterHeaderCreationFlags {
    let flag = bits(flags);
    OuterHeaderCreationFlags {
        gtpu_udp_ipv4: flag(0),
        gtpu_udp_ipv6: flag(1),
        udp_ipv4: flag(2),
        udp_ipv6: flag(3),
        ipv4: flag(4),
        ipv6: flag(5),
        ctag: flag(6),
        stag: flag(7),
    }
}

fn named_flag_set(name: &str) -> OuterHeaderCreationFlags {
    match name {
        "new" => OuterHeaderCreationFlags::new(),
        "default" => OuterHeaderCreationFlags::default(),
        "gtpu_ipv4" => OuterHeaderCreationFlags::gtpu_ipv4(),
        "gtpu_ipv6" => OuterHeaderCreationFlags::gtpu_ipv6(),
        "udp_ipv4" => OuterHeaderCreationFlags::udp_ipv4(),
        "udp_ipv6" => OuterHeaderCreationFlags::udp_ipv6(),
        _ => panic!("a flag set: {name}"),
    }
}

fn outer_header_creation(call: &str, tokens: &[Token]) -> OuterHeaderCreation {
    if let Some(name) = call.strip_prefix("flags.") {
        return OuterHeaderCreation::new(named_flag_set(name));
    }
    let (ipv4_address, ipv6_address) = addresses(tokens);
    let teid = given(tokens, "teid").map(|teid| Teid(teid as u32));
    let port_number = given(tokens, "port").map(|port| port as u16);
    let description = flag_set(number(tokens, "flags"));
    let tag = |key| given(tokens, key).map(|tag| tag as u32);
    let made = match (call, teid, ipv4_address, ipv6_address, port_number) {
        ("new", ..) => OuterHeaderCreation::new(description),
        ("gtpu_ipv4", Some(teid), Some(a), ..) => OuterHeaderCreation::gtpu_ipv4(teid, a),
        ("gtpu_ipv6", Some(teid), _, Some(a), _) => OuterHeaderCreation::gtpu_ipv6(teid, a),
        ("udp_ipv4", _, Some(a), _, Some(port)) => OuterHeaderCreation::udp_ipv4(a, port),
        _ => {
            assert_eq!(call, "");
            let (ctag, stag) = (tag("ctag"), tag("stag"));
            return OuterHeaderCreation { description, teid, ipv4_address, ipv6_address, port_number, ctag, stag };
        }
    };
    tokens.iter().fold(made, |made, token| match token.key {
        "ctag" => made.with_ctag(tag("ctag").expect("a tag")),
        "stag" => made.with_stag(tag("stag").expect("a tag")),
        _ => made,
    })
}

fn pfd_contents(call: &str, tokens: &[Token]) -> Made<PfdContents> {
    let one = |key| optional_text(tokens, key);
    let needed = |key| text(value(tokens, key).expect("a text"));
    let list = |key| texts(value(tokens, key).unwrap_or(""));
    Ok(match call {
        "" => PfdContents {
            flags: number(tokens, "flags") as u8,
            flow_description: one("fd")?,
            url: one("url")?,
            domain_name: one("dn")?,
            custom_pfd_content: one("cp")?,
            domain_name_protocol: one("dnp")?,
            additional_flow_description: list("afd")?,
            additional_url: list("aurl")?,
            additional_domain_name_and_protocol: list("adnp")?,
        },
        "flow_description" => PfdContents::flow_description(needed("fd")?)?,
        "url" => PfdContents::url(needed("url")?)?,
        "domain_name" => PfdContents::domain_name(needed("dn")?)?,
        "flow_and_url" => PfdContents::flow_and_url(needed("fd")?, needed("url")?)?,
        "domain_and_protocol" => PfdContents::domain_and_protocol(needed("dn")?, needed("dnp")?)?,
        _ => panic!("a call of PFD Contents: {call}"),
    })
}

/// One call of the builder. `strings` are the texts of a list, or the one text.
fn called(builder: PfdContentsBuilder, token: &Token, mut strings: Vec<String>) -> PfdContentsBuilder {
    let mut one = || strings.pop().expect("a text");
    match (token.key, token.adds) {
        ("fd", false) => builder.flow_description(one()),
        ("url", false) => builder.url(one()),
        ("dn", false) => builder.domain_name(one()),
        ("cp", false) => builder.custom_pfd_content(one()),
        ("dnp", false) => builder.domain_name_protocol(one()),
        ("afd", true) => builder.add_additional_flow_description(one()),
        ("aurl", true) => builder.add_additional_url(one()),
        ("adnp", true) => builder.add_additional_domain_name_and_protocol(one()),
        ("afd", false) => builder.additional_flow_descriptions(strings),
        ("aurl", false) => builder.additional_urls(strings),
        ("adnp", false) => builder.additional_domain_names_and_protocols(strings),
        _ => panic!("a call of the builder: {token:?}"),
    }
}

fn is_list(token: &Token) -> bool {
    ["afd", "aurl", "adnp"].contains(&token.key) && !token.adds
}

fn pfd_built(tokens: &[Token]) -> Made<PfdContents> {
    let mut builder = PfdContents::builder();
    for token in tokens {
        let strings = if is_list(token) { texts(token.value)? } else { vec![text(token.value)?] };
        builder = called(builder, token, strings);
    }
    Ok(builder.build()?)
}

/// The builder's calls with texts by their places. A call whose text isn't there may have been undone by a later one.
fn pfd_raw_built(tokens: &[Token]) -> Made<PfdContents> {
    let slice = slice(tokens);
    let mut builder = PfdContentsBuilder::new();
    for token in tokens.iter().filter(|token| !["slice", "room", "brief"].contains(&token.key)) {
        let strings = match (&numbers(token.value)[..], token.adds) {
            ([place], true) => fields(&slice, *place, 1),
            ([place, _, count], false) => fields(&slice, *place, *count),
            ([place, len], false) => string(&slice, *place, *len).map(|text| vec![text]),
            _ => panic!("a call of the builder: {token:?}"),
        };
        builder = called(builder, token, strings.ok_or(Fault::NotUtf8)?);
    }
    Ok(builder.build()?)
}

/// The text at a place, where it is there whole and is UTF-8.
fn string(slice: &[u8], place: u64, len: u64) -> Option<String> {
    let bytes = slice.get(place as usize..place.checked_add(len)? as usize)?;
    String::from_utf8(bytes.to_vec()).ok()
}

/// The texts of so many fields in wire form.
fn fields(slice: &[u8], mut place: u64, count: u64) -> Option<Vec<String>> {
    let mut texts = Vec::new();
    for _ in 0..count {
        let length = slice.get(place as usize..place.checked_add(2)? as usize)?;
        let length = u64::from(u16::from_be_bytes([length[0], length[1]]));
        texts.push(string(slice, place + 2, length)?);
        place += 2 + length;
    }
    Some(texts)
}
