//! Records of all six kinds: read, written and printed through the crate.

use crate::line::hex;
use std::net::{Ipv4Addr, Ipv6Addr};
use yerondatt::ie::f_teid::Fteid;
use yerondatt::ie::fseid::Fseid;
use yerondatt::ie::node_id::NodeId;
use yerondatt::ie::outer_header_creation::{OuterHeaderCreation, OuterHeaderCreationFlags};
use yerondatt::ie::pfd_contents::PfdContents;
use yerondatt::ie::ue_ip_address::UeIpAddress;
use yerondatt::Refusal;

#[derive(Debug, Clone, PartialEq)]
pub enum Record {
    U(UeIpAddress),
    F(Fteid),
    S(Fseid),
    N(NodeId),
    O(OuterHeaderCreation),
    P(PfdContents),
}

pub fn read(kind: u8, payload: &[u8]) -> Result<(Record, usize), Refusal> {
    fn named<T>(name: fn(T) -> Record) -> impl FnOnce((T, usize)) -> (Record, usize) {
        move |(record, used)| (name(record), used)
    }
    match kind {
        b'U' => UeIpAddress::unmarshal_used(payload).map(named(Record::U)),
        b'F' => Fteid::unmarshal_used(payload).map(named(Record::F)),
        b'S' => Fseid::unmarshal_used(payload).map(named(Record::S)),
        b'N' => NodeId::unmarshal_used(payload).map(named(Record::N)),
        b'O' => OuterHeaderCreation::unmarshal_used(payload).map(named(Record::O)),
        b'P' => PfdContents::unmarshal_used(payload).map(named(Record::P)),
        _ => unreachable!("a letter of a kind"),
    }
}

pub fn read_alone(kind: u8, payload: &[u8]) -> Result<Record, Refusal> {
    match kind {
        b'U' => UeIpAddress::unmarshal(payload).map(Record::U),
        b'F' => Fteid::unmarshal(payload).map(Record::F),
        b'S' => Fseid::unmarshal(payload).map(Record::S),
        b'N' => NodeId::unmarshal(payload).map(Record::N),
        b'O' => OuterHeaderCreation::unmarshal(payload).map(Record::O),
        b'P' => PfdContents::unmarshal(payload).map(Record::P),
        _ => unreachable!("a letter of a kind"),
    }
}

pub fn strict(kind: u8, payload: &[u8]) -> bool {
    match kind {
        b'U' => UeIpAddress::strict(payload),
        b'F' => Fteid::strict(payload),
        b'S' => Fseid::strict(payload),
        b'N' => NodeId::strict(payload),
        b'O' => OuterHeaderCreation::strict(payload),
        b'P' => PfdContents::strict(payload),
        _ => unreachable!("a letter of a kind"),
    }
}

impl Record {
    /// `marshal`, or what says why not where there is such a method.
    pub fn marshal(&self) -> Result<Vec<u8>, Refusal> {
        match self {
            Record::U(r) => Ok(r.marshal()),
            Record::F(r) => Ok(r.marshal()),
            Record::S(r) => Ok(r.marshal()),
            Record::N(r) => r.try_marshal(),
            Record::O(r) => Ok(r.marshal()),
            Record::P(r) => r.try_marshal(),
        }
    }

    pub fn marshal_to(&self, out: &mut [u8]) -> Result<usize, Refusal> {
        match self {
            Record::U(r) => r.marshal_to(out),
            Record::F(r) => r.marshal_to(out),
            Record::S(r) => r.marshal_to(out),
            Record::N(r) => r.marshal_to(out),
            Record::O(r) => r.marshal_to(out),
            Record::P(r) => r.marshal_to(out),
        }
    }

    /// What the strict verdict asks of a record that was read.
    pub fn is_strict(&self) -> bool {
        match self {
            Record::F(r) => r.v4 || r.v6,
            Record::S(r) => r.v4 || r.v6,
            Record::P(r) => r.flags == there(r),
            _ => true,
        }
    }

    /// Every field on one line. With `places`, texts have those in the payload, which a record that was read has in its
    /// written form too.
    pub fn fields(&self, places: bool) -> String {
        match self {
            Record::U(r) => ue_ip_address(r),
            Record::F(r) => fteid(r),
            Record::S(r) => fseid(r),
            Record::N(NodeId::IPv4(address)) => format!("rec=N type=0 ipv4={}", hex(&address.octets())),
            Record::N(NodeId::IPv6(address)) => format!("rec=N type=1 ipv6={}", hex(&address.octets())),
            Record::N(NodeId::FQDN(name)) => {
                format!("rec=N type=2 name={}{}", quoted(name), if places { "@1" } else { "" })
            }
            Record::O(r) => outer_header_creation(r),
            Record::P(r) => pfd_contents(r, places),
        }
    }
}

/// The flags of the fields that a record has.
fn there(r: &PfdContents) -> u8 {
    let texts = [&r.flow_description, &r.url, &r.domain_name, &r.custom_pfd_content, &r.domain_name_protocol];
    let lists = [&r.additional_flow_description, &r.additional_url, &r.additional_domain_name_and_protocol];
    let texts = texts.iter().enumerate().map(|(i, text)| u8::from(text.is_some()) << i);
    let lists = lists.iter().enumerate().map(|(i, list)| u8::from(!list.is_empty()) << (5 + i));
    texts.chain(lists).sum()
}

fn or_dash<T>(value: Option<T>, shown: impl Fn(T) -> String) -> String {
    value.map_or("-".into(), shown)
}

fn ip4(address: Option<Ipv4Addr>) -> String {
    or_dash(address, |address| hex(&address.octets()))
}

fn ip6(address: Option<Ipv6Addr>) -> String {
    or_dash(address, |address| hex(&address.octets()))
}

fn quoted(text: &str) -> String {
    format!("\"{}\"", hex(text.as_bytes()))
}

fn ue_ip_address(r: &UeIpAddress) -> String {
    let flags = [
        ("v6", r.v6),
        ("v4", r.v4),
        ("sd", r.source_destination),
        ("ip6d", r.ipv6_prefix_delegation),
        ("chv4", r.choose_ipv4),
        ("chv6", r.choose_ipv6),
        ("ip6pl", r.ipv6_prefix_length_present),
    ];
    let flags: String = flags.iter().map(|(name, set)| format!("{name}={} ", u8::from(*set))).collect();
    let (v4, v6) = (ip4(r.ipv4_address), ip6(r.ipv6_address));
    let byte = |value| or_dash(value, |byte: u8| format!("{byte:02X}"));
    let (db, pl) = (byte(r.ipv6_prefix_delegation_bits), byte(r.ipv6_prefix_length));
    format!("rec=U {flags}ipv4={v4} ipv6={v6} db={db} pl={pl}")
}

fn fteid(r: &Fteid) -> String {
    let [v4, v6, ch, chid] = [r.v4, r.v6, r.ch, r.chid].map(u8::from);
    let (ipv4, ipv6) = (ip4(r.ipv4_address), ip6(r.ipv6_address));
    let (teid, cid) = (r.teid, r.choose_id);
    format!("rec=F v4={v4} v6={v6} ch={ch} chid={chid} teid={teid:08X} ipv4={ipv4} ipv6={ipv6} cid={cid:02X}")
}

fn fseid(r: &Fseid) -> String {
    let [v6, v4] = [r.v6, r.v4].map(u8::from);
    let (ipv4, ipv6) = (ip4(r.ipv4_address), ip6(r.ipv6_address));
    format!("rec=S v6={v6} v4={v4} seid={:016X} ipv4={ipv4} ipv6={ipv6}", r.seid)
}

fn outer_header_creation(r: &OuterHeaderCreation) -> String {
    let flags = flag_byte(&r.description);
    let teid = or_dash(r.teid, |teid| format!("{teid:08X}"));
    let (v4, v6) = (ip4(r.ipv4_address), ip6(r.ipv6_address));
    let port = or_dash(r.port_number, |port| format!("{port:04X}"));
    let tag = |tag| or_dash(tag, |tag: u32| format!("{tag:08X}"));
    let (ctag, stag) = (tag(r.ctag), tag(r.stag));
    format!("rec=O flags={flags:02X} teid={teid} ipv4={v4} ipv6={v6} port={port} ctag={ctag} stag={stag}")
}

fn flag_byte(d: &OuterHeaderCreationFlags) -> u8 {
    let flags = [d.gtpu_udp_ipv4, d.gtpu_udp_ipv6, d.udp_ipv4, d.udp_ipv6, d.ipv4, d.ipv6, d.ctag, d.stag];
    flags.iter().enumerate().map(|(bit, set)| u8::from(*set) << bit).sum()
}

fn pfd_contents(r: &PfdContents, places: bool) -> String {
    let mut shown = format!("rec=P flags={:02X}", r.flags);
    let mut end = 2;
    for (name, text) in [
        ("fd", &r.flow_description),
        ("url", &r.url),
        ("dn", &r.domain_name),
        ("cp", &r.custom_pfd_content),
        ("dnp", &r.domain_name_protocol),
    ] {
        let place = text.as_ref().filter(|_| places).map_or(String::new(), |_| format!("@{}", end + 2));
        shown += &format!(" {name}={}{place}", or_dash(text.as_deref(), quoted));
        end += text.as_ref().map_or(0, |text| 2 + text.len());
    }
    for (name, list) in [
        ("afd", &r.additional_flow_description),
        ("aurl", &r.additional_url),
        ("adnp", &r.additional_domain_name_and_protocol),
    ] {
        let texts: Vec<String> = list.iter().map(|text| quoted(text)).collect();
        let bytes: usize = list.iter().map(|text| 2 + text.len()).sum();
        let place = if places && bytes > 0 { format!("@{end}+{bytes}") } else { String::new() };
        shown += &format!(" {name}=[{}]{place}", texts.join(","));
        end += bytes;
    }
    shown
}
