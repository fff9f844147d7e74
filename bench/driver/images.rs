//! The Rust's records laid out as our images, for the check that both sides answer alike.

use pfcp::error::PfcpError;
use pfcp::ie::f_teid::Fteid;
use pfcp::ie::fseid::Fseid;
use pfcp::ie::node_id::NodeId;
use pfcp::ie::outer_header_creation::OuterHeaderCreation;
use pfcp::ie::pfd_contents::PfdContents;
use pfcp::ie::ue_ip_address::UeIpAddress;
use std::net::{Ipv4Addr, Ipv6Addr};

/// The length of a head.
pub const HEAD: usize = 40;

pub trait Record: Sized {
    fn read(payload: &[u8]) -> Result<Self, PfcpError>;
    fn written(&self) -> Vec<u8>;
    /// What follows the head of an image.
    fn laid(&self) -> Vec<u8>;
    /// What follows it where the read is refused.
    fn refused() -> Vec<u8>;
    /// The answer's number where the Rust refuses a value.
    fn bad_value(_payload: &[u8]) -> u64 {
        2
    }
}

macro_rules! calls {
    () => {
        fn read(payload: &[u8]) -> Result<Self, PfcpError> {
            Self::unmarshal(payload)
        }
        fn written(&self) -> Vec<u8> {
            self.marshal()
        }
    };
}

/// The head of an image or a report.
pub fn head(answer: u64, values: [u64; 3], count: u64) -> Vec<u8> {
    [answer, values[0], values[1], values[2], count].iter().flat_map(|x| number(*x)).collect()
}

/// Flags as a byte, the first one lowest.
fn bits(flags: &[bool]) -> u8 {
    flags.iter().enumerate().map(|(i, f)| (*f as u8) << i).sum()
}

fn number(x: u64) -> [u8; 8] {
    x.to_le_bytes()
}

fn ipv4(a: Option<Ipv4Addr>) -> [u8; 4] {
    a.map_or([0; 4], |a| a.octets())
}

fn ipv6(a: Option<Ipv6Addr>) -> [u8; 16] {
    a.map_or([0; 16], |a| a.octets())
}

impl Record for UeIpAddress {
    calls!();

    fn laid(&self) -> Vec<u8> {
        let flags = bits(&[
            self.v6,
            self.v4,
            self.source_destination,
            self.ipv6_prefix_delegation,
            self.choose_ipv4,
            self.choose_ipv6,
            self.ipv6_prefix_length_present,
        ]);
        let given = bits(&[
            self.ipv4_address.is_some(),
            self.ipv6_address.is_some(),
            self.ipv6_prefix_delegation_bits.is_some(),
            self.ipv6_prefix_length.is_some(),
        ]);
        let delegation_bits = self.ipv6_prefix_delegation_bits.unwrap_or(0);
        let prefix_length = self.ipv6_prefix_length.unwrap_or(0);
        let mut laid = vec![flags, given, delegation_bits, prefix_length];
        laid.extend(ipv4(self.ipv4_address));
        laid.extend(ipv6(self.ipv6_address));
        laid
    }

    fn refused() -> Vec<u8> {
        vec![0; 24]
    }
}

impl Record for Fteid {
    calls!();

    fn laid(&self) -> Vec<u8> {
        let flags = bits(&[self.v4, self.v6, self.ch, self.chid]);
        let given = bits(&[self.ipv4_address.is_some(), self.ipv6_address.is_some()]);
        let mut laid = vec![flags, given];
        laid.extend(number(self.teid.0 as u64));
        laid.push(self.choose_id);
        laid.extend(ipv4(self.ipv4_address));
        laid.extend(ipv6(self.ipv6_address));
        laid
    }

    fn refused() -> Vec<u8> {
        vec![0; 31]
    }
}

impl Record for Fseid {
    calls!();

    fn laid(&self) -> Vec<u8> {
        let flags = bits(&[self.v6, self.v4]);
        let given = bits(&[self.ipv4_address.is_some(), self.ipv6_address.is_some()]);
        let mut laid = vec![flags, given];
        laid.extend(number(self.seid.0));
        laid.extend(ipv4(self.ipv4_address));
        laid.extend(ipv6(self.ipv6_address));
        laid
    }

    fn refused() -> Vec<u8> {
        vec![0; 30]
    }
}

fn node_id(kind: u8, place: u64, len: u64, v4: Option<Ipv4Addr>, v6: Option<Ipv6Addr>) -> Vec<u8> {
    [&[kind], &number(place)[..], &number(len)[..], &ipv4(v4)[..], &ipv6(v6)[..]].concat()
}

impl Record for NodeId {
    calls!();

    fn laid(&self) -> Vec<u8> {
        match self {
            NodeId::IPv4(a) => node_id(0, 0, 0, Some(*a), None),
            NodeId::IPv6(a) => node_id(1, 0, 0, None, Some(*a)),
            NodeId::FQDN(name) => node_id(2, 1, name.len() as u64, None, None),
        }
    }

    fn refused() -> Vec<u8> {
        node_id(2, 0, 0, None, None)
    }

    fn bad_value(payload: &[u8]) -> u64 {
        if payload[0] == 2 { 4 } else { 3 }
    }
}

impl Record for OuterHeaderCreation {
    calls!();

    fn laid(&self) -> Vec<u8> {
        let d = self.description;
        let flags = bits(&[
            d.gtpu_udp_ipv4,
            d.gtpu_udp_ipv6,
            d.udp_ipv4,
            d.udp_ipv6,
            d.ipv4,
            d.ipv6,
            d.ctag,
            d.stag,
        ]);
        let given = bits(&[
            self.ipv4_address.is_some(),
            self.ipv6_address.is_some(),
            self.teid.is_some(),
            self.port_number.is_some(),
            self.ctag.is_some(),
            self.stag.is_some(),
        ]);
        let mut laid = vec![flags, given];
        laid.extend(number(self.teid.map_or(0, |t| t.0 as u64)));
        laid.extend(number(self.port_number.unwrap_or(0) as u64));
        laid.extend(number(self.ctag.unwrap_or(0) as u64));
        laid.extend(number(self.stag.unwrap_or(0) as u64));
        laid.extend(ipv4(self.ipv4_address));
        laid.extend(ipv6(self.ipv6_address));
        laid
    }

    fn refused() -> Vec<u8> {
        vec![0; 54]
    }
}

/// Texts and lists, one behind another in the payload.
struct Places {
    at: u64,
    laid: Vec<u8>,
}

impl Places {
    fn put(&mut self, numbers: &[u64]) {
        self.laid.extend(numbers.iter().flat_map(|x| number(*x)));
    }

    fn text(&mut self, text: &Option<String>) {
        let Some(text) = text else {
            return self.put(&[0, 0]);
        };
        let len = text.len() as u64;
        self.put(&[self.at + 2, len]);
        self.at += 2 + len;
    }

    /// A list that is flagged has a place even where it is empty.
    fn list(&mut self, flagged: bool, list: &[String]) {
        let len = list.iter().map(|t| 2 + t.len() as u64).sum();
        let place = if flagged { self.at } else { 0 };
        self.put(&[place, len, list.len() as u64]);
        self.at += len;
    }
}

impl Record for PfdContents {
    calls!();

    fn laid(&self) -> Vec<u8> {
        let texts = [
            &self.flow_description,
            &self.url,
            &self.domain_name,
            &self.custom_pfd_content,
            &self.domain_name_protocol,
        ];
        let given = bits(&texts.map(|t| t.is_some()));
        let mut places = Places { at: 2, laid: vec![self.flags, given] };
        for text in texts {
            places.text(text);
        }
        places.list(self.flags & 0x20 != 0, &self.additional_flow_description);
        places.list(self.flags & 0x40 != 0, &self.additional_url);
        places.list(self.flags & 0x80 != 0, &self.additional_domain_name_and_protocol);
        places.laid
    }

    fn refused() -> Vec<u8> {
        vec![0; 154]
    }

    fn bad_value(_payload: &[u8]) -> u64 {
        4
    }
}
