//! Node ID.

use super::LIMIT;
use crate::error::{Kind, Refusal};
use crate::image::Image;
use alloc::string::String;
use alloc::vec;
use alloc::vec::Vec;
use core::net::{Ipv4Addr, Ipv6Addr};

/// A node, by an address or by its name.
#[derive(Debug, Clone, PartialEq, Eq)]
pub enum NodeId {
    /// Type 0, an IPv4 address.
    IPv4(Ipv4Addr),
    /// Type 1, an IPv6 address.
    IPv6(Ipv6Addr),
    /// Type 2, a name as a text. Its form isn't looked at.
    FQDN(String),
}

kind!(NodeId, Kind::NodeId);
marshal_texts!(NodeId);

const TYPE: usize = 40;
const NAME_PLACE: usize = 41;
const NAME_LEN: usize = 49;
const IPV4: usize = 57;
const IPV6: usize = 61;

impl NodeId {
    /// The node at an IPv4 address.
    pub fn new_ipv4(addr: Ipv4Addr) -> Self {
        NodeId::IPv4(addr)
    }

    /// The node at an IPv6 address.
    pub fn new_ipv6(addr: Ipv6Addr) -> Self {
        NodeId::IPv6(addr)
    }

    /// The node of this name.
    pub fn new_fqdn(fqdn: &str) -> Self {
        NodeId::FQDN(fqdn.into())
    }

    fn of_image(image: &Image<77>, payload: &[u8]) -> Self {
        match image.0[TYPE] {
            0 => NodeId::IPv4(image.ipv4(IPV4)),
            1 => NodeId::IPv6(image.ipv6(IPV6)),
            _ => NodeId::FQDN(super::text(payload, image.count(NAME_PLACE), image.count(NAME_LEN))),
        }
    }

    fn to_image(&self) -> (Image<77>, &[u8]) {
        let mut image = Image::new();
        let mut texts: &[u8] = &[];
        match self {
            NodeId::IPv4(address) => image.set_ipv4(IPV4, Some(*address)),
            NodeId::IPv6(address) => {
                image.0[TYPE] = 1;
                image.set_ipv6(IPV6, Some(*address));
            }
            NodeId::FQDN(name) => {
                image.0[TYPE] = 2;
                image.set_count(NAME_LEN, name.len());
                texts = name.as_bytes();
            }
        }
        (image, texts)
    }

    /// As many bytes as the written form has, as far as one may have them.
    fn room(&self) -> usize {
        match self {
            NodeId::IPv4(_) => 5,
            NodeId::IPv6(_) => 17,
            NodeId::FQDN(name) => LIMIT.min(1 + name.len()),
        }
    }
}
