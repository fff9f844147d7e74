//! The published records: read, written and printed.

use super::line::hex;
use crate::error::PfcpError;
use crate::ie::f_teid::Fteid;
use crate::ie::fseid::Fseid;
use crate::ie::node_id::NodeId;
use crate::ie::outer_header_creation::{OuterHeaderCreation, OuterHeaderCreationFlags};
use crate::ie::pfd_contents::PfdContents;
use crate::ie::ue_ip_address::UeIpAddress;
use crate::message::header::Header;
use std::fmt::Write;
use std::net::{Ipv4Addr, Ipv6Addr};

#[derive(Debug, Clone, PartialEq)]
pub enum Record {
    U(UeIpAddress),
    F(Fteid),
    S(Fseid),
    N(NodeId),
    O(OuterHeaderCreation),
    P(PfdContents),
    H(Header),
}

/// The record of a payload of the kind that the letter names.
pub fn read(kind: u8, p: &[u8]) -> Result<Record, PfcpError> {
    Ok(match kind {
        b'U' => Record::U(UeIpAddress::unmarshal(p)?),
        b'F' => Record::F(Fteid::unmarshal(p)?),
        b'S' => Record::S(Fseid::unmarshal(p)?),
        b'N' => Record::N(NodeId::unmarshal(p)?),
        b'O' => Record::O(OuterHeaderCreation::unmarshal(p)?),
        b'P' => Record::P(PfdContents::unmarshal(p)?),
        b'H' => Record::H(Header::unmarshal(p)?),
        _ => unreachable!(),
    })
}

fn bit(x: bool) -> u8 {
    x as u8
}

/// An optional value, `-` where it is absent.
fn opt(value: Option<String>) -> String {
    value.unwrap_or_else(|| "-".into())
}

fn ip4(a: &Option<Ipv4Addr>) -> String {
    opt(a.map(|a| hex(&a.octets())))
}

fn ip6(a: &Option<Ipv6Addr>) -> String {
    opt(a.map(|a| hex(&a.octets())))
}

/// The eight flags as byte 0 of the payload has them.
fn ohc_byte(d: &OuterHeaderCreationFlags) -> u8 {
    let flags = [
        d.gtpu_udp_ipv4,
        d.gtpu_udp_ipv6,
        d.udp_ipv4,
        d.udp_ipv6,
        d.ipv4,
        d.ipv6,
        d.ctag,
        d.stag,
    ];
    flags.iter().rev().fold(0, |byte, f| byte << 1 | bit(*f))
}

impl Record {
    pub fn marshal(&self) -> Vec<u8> {
        match self {
            Record::U(r) => r.marshal(),
            Record::F(r) => r.marshal(),
            Record::S(r) => r.marshal(),
            Record::N(r) => r.marshal(),
            Record::O(r) => r.marshal(),
            Record::P(r) => r.marshal(),
            Record::H(r) => r.marshal(),
        }
    }

    /// Every field on one line. With `places`, where the record was read, texts have their places in the
    /// payload, which are those in the written form (`--check` tests that).
    pub fn fields(&self, places: bool) -> String {
        match self {
            Record::U(r) => format!(
                "rec=U v6={} v4={} sd={} ip6d={} chv4={} chv6={} ip6pl={} ipv4={} ipv6={} db={} pl={}",
                bit(r.v6),
                bit(r.v4),
                bit(r.source_destination),
                bit(r.ipv6_prefix_delegation),
                bit(r.choose_ipv4),
                bit(r.choose_ipv6),
                bit(r.ipv6_prefix_length_present),
                ip4(&r.ipv4_address),
                ip6(&r.ipv6_address),
                opt(r.ipv6_prefix_delegation_bits.map(|x| format!("{x:02X}"))),
                opt(r.ipv6_prefix_length.map(|x| format!("{x:02X}"))),
            ),
            Record::F(r) => format!(
                "rec=F v4={} v6={} ch={} chid={} teid={:08X} ipv4={} ipv6={} cid={:02X}",
                bit(r.v4),
                bit(r.v6),
                bit(r.ch),
                bit(r.chid),
                r.teid.0,
                ip4(&r.ipv4_address),
                ip6(&r.ipv6_address),
                r.choose_id,
            ),
            Record::S(r) => format!(
                "rec=S v6={} v4={} seid={:016X} ipv4={} ipv6={}",
                bit(r.v6),
                bit(r.v4),
                r.seid.0,
                ip4(&r.ipv4_address),
                ip6(&r.ipv6_address),
            ),
            Record::N(NodeId::IPv4(a)) => format!("rec=N type=0 ipv4={}", hex(&a.octets())),
            Record::N(NodeId::IPv6(a)) => format!("rec=N type=1 ipv6={}", hex(&a.octets())),
            Record::N(NodeId::FQDN(s)) => {
                let place = if places { "@1" } else { "" };
                format!("rec=N type=2 name=\"{}\"{place}", hex(s.as_bytes()))
            }
            Record::O(r) => format!(
                "rec=O flags={:02X} teid={} ipv4={} ipv6={} port={} ctag={} stag={}",
                ohc_byte(&r.description),
                opt(r.teid.map(|x| format!("{:08X}", x.0))),
                ip4(&r.ipv4_address),
                ip6(&r.ipv6_address),
                opt(r.port_number.map(|x| format!("{x:04X}"))),
                opt(r.ctag.map(|x| format!("{x:08X}"))),
                opt(r.stag.map(|x| format!("{x:08X}"))),
            ),
            Record::P(r) => pfd_fields(r, places),
            Record::H(r) => format!(
                "rec=H ver={:02X} fo={} mp={} s={} type={:02X} len={:04X} seid={:016X} seq={:08X} prio={:02X}",
                r.version,
                bit(r.has_fo),
                bit(r.has_mp),
                bit(r.has_seid),
                r.raw_message_type,
                r.length,
                r.seid.0,
                r.sequence_number.0,
                r.message_priority,
            ),
        }
    }
}

fn pfd_fields(r: &PfdContents, places: bool) -> String {
    let mut out = format!("rec=P flags={:02X}", r.flags);
    let mut at = 2;
    for (name, text) in [
        ("fd", &r.flow_description),
        ("url", &r.url),
        ("dn", &r.domain_name),
        ("cp", &r.custom_pfd_content),
        ("dnp", &r.domain_name_protocol),
    ] {
        let Some(s) = text else {
            write!(out, " {name}=-").unwrap();
            continue;
        };
        write!(out, " {name}=\"{}\"", hex(s.as_bytes())).unwrap();
        if places {
            write!(out, "@{}", at + 2).unwrap();
        }
        at += 2 + s.len();
    }
    for (name, list) in [
        ("afd", &r.additional_flow_description),
        ("aurl", &r.additional_url),
        ("adnp", &r.additional_domain_name_and_protocol),
    ] {
        let texts: Vec<String> = list.iter().map(|s| format!("\"{}\"", hex(s.as_bytes()))).collect();
        write!(out, " {name}=[{}]", texts.join(",")).unwrap();
        let bytes: usize = list.iter().map(|s| 2 + s.len()).sum();
        if places && !list.is_empty() {
            write!(out, "@{at}+{bytes}").unwrap();
        }
        at += bytes;
    }
    out
}
