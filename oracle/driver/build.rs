//! Record lines: a plain record, a constructor or a chain of builder calls, then the writer.

use super::line::{hex, unhex};
use super::raw;
use super::record::Record;
use super::refusal::by_word;
use super::{Options, OTHER};
use crate::error::PfcpError;
use crate::ie::f_teid::Fteid;
use crate::ie::fseid::Fseid;
use crate::ie::node_id::NodeId;
use crate::ie::outer_header_creation::{OuterHeaderCreation, OuterHeaderCreationFlags};
use crate::ie::pfd_contents::PfdContents;
use crate::ie::ue_ip_address::UeIpAddress;
use crate::message::header::Header;
use crate::message::MsgType;
use crate::types::{Seid, SequenceNumber, Teid};
use std::fmt::Write;
use std::net::{Ipv4Addr, Ipv6Addr};

/// Why there is no record.
#[derive(Debug)]
pub enum Fault {
    Other,          // the line is of no known form
    Text(u32),      // 6: no Rust String can hold the text of this field
    Rule(u32),      // 9: a builder's rule
    InputTooLong(usize), // 5, only with --limit
    OutputTooLong,        // 7, only of raw lines
    NoRoom(usize),  // 8, only of raw lines and of headers
}

pub type Made<T> = Result<T, Fault>;

pub fn answer(o: &Options, line: &[u8], out: &mut String) {
    let text = match std::str::from_utf8(line) {
        Ok(text) if line.first().map_or(false, |k| o.takes(*k)) => text,
        _ => return out.push_str(OTHER),
    };
    if let Some(answered) = raw::answer(o, text, out) {
        return answered.unwrap_or_else(|fault| refused(fault, out));
    }
    match record(o, text) {
        Ok(r) => {
            let w = r.marshal();
            if o.limit && w.len() > 65_535 {
                write!(out, "7 0 - | {}", r.fields(false)).unwrap();
            } else {
                write!(out, "0 {} {} | {}", w.len(), hex(&w), r.fields(false)).unwrap();
            }
        }
        Err(fault) => refused(fault, out),
    }
}

fn refused(fault: Fault, out: &mut String) {
    match fault {
        Fault::Other => out.push_str(OTHER),
        Fault::Text(field) => write!(out, "6 {field} -").unwrap(),
        Fault::Rule(rule) => write!(out, "9 {rule} -").unwrap(),
        Fault::InputTooLong(len) => write!(out, "5 {len} -").unwrap(),
        Fault::OutputTooLong => write!(out, "7 0 -").unwrap(),
        Fault::NoRoom(needed) => write!(out, "8 {needed} -").unwrap(),
    }
}

// ---- tokens

/// A token between two spaces.
pub struct Token<'a> {
    pub key: &'a str,
    pub op: &'a str, // "", "=" or "+="
    pub val: &'a str,
}

pub fn token(text: &str) -> Token<'_> {
    match text.split_once('=') {
        None => Token { key: text, op: "", val: "" },
        Some((key, val)) => match key.strip_suffix('+') {
            Some(key) => Token { key, op: "+=", val },
            None => Token { key, op: "=", val },
        },
    }
}

/// Tokens of known keys, each there at most once.
pub struct Fields<'a>(Vec<Token<'a>>);

impl<'a> Fields<'a> {
    pub fn new(tokens: Vec<Token<'a>>, known: &[&str]) -> Made<Self> {
        for (i, t) in tokens.iter().enumerate() {
            let again = tokens[..i].iter().any(|u| u.key == t.key);
            if t.op == "+=" || again || !known.contains(&t.key) {
                return Err(Fault::Other);
            }
        }
        Ok(Fields(tokens))
    }

    fn find(&self, key: &str, op: &str) -> Made<Option<&'a str>> {
        match self.0.iter().find(|t| t.key == key) {
            None => Ok(None),
            Some(t) if t.op == op => Ok(Some(t.val)),
            Some(_) => Err(Fault::Other),
        }
    }

    pub fn get(&self, key: &str) -> Made<Option<&'a str>> {
        self.find(key, "=")
    }

    pub fn bare(&self, key: &str) -> Made<bool> {
        Ok(self.find(key, "")?.is_some())
    }

    fn num(&self, key: &str, bytes: usize) -> Made<Option<u64>> {
        self.get(key)?.map(|v| num(v, bytes)).transpose()
    }

    pub fn num_or_0(&self, key: &str, bytes: usize) -> Made<u64> {
        Ok(self.num(key, bytes)?.unwrap_or(0))
    }

    fn v4(&self) -> Made<Option<Ipv4Addr>> {
        self.get("v4")?.map(ipv4).transpose()
    }

    fn v6(&self) -> Made<Option<Ipv6Addr>> {
        self.get("v6")?.map(ipv6).transpose()
    }
}

pub fn needed<T>(x: Option<T>) -> Made<T> {
    x.ok_or(Fault::Other)
}

// ---- values

fn num(val: &str, bytes: usize) -> Made<u64> {
    let v = needed(unhex(val.as_bytes()))?;
    if v.len() != bytes {
        return Err(Fault::Other);
    }
    Ok(v.iter().fold(0, |n, x| n << 8 | u64::from(*x)))
}

fn ipv4(val: &str) -> Made<Ipv4Addr> {
    Ok(Ipv4Addr::from(num(val, 4)? as u32))
}

fn ipv6(val: &str) -> Made<Ipv6Addr> {
    let v = needed(unhex(val.as_bytes()))?;
    let octets: [u8; 16] = v.try_into().map_err(|_| Fault::Other)?;
    Ok(Ipv6Addr::from(octets))
}

/// Turns the texts of a line into Strings. An empty one stands for a text that can't be one, and
/// `all_good` then refuses the line, once it is known that the line is of a known form.
struct Texts {
    limit: bool,
    /// How many bytes all texts of the line have in a slice that is lent, the entries of lists in wire form.
    total: usize,
    /// The lowest field number with a text that isn't UTF-8.
    bad: Option<u32>,
}

impl Texts {
    fn new(o: &Options) -> Self {
        Texts { limit: o.limit, total: 0, bad: None }
    }

    /// `-` is the empty text, HEX its bytes, HEX*N those bytes N times. None where they aren't UTF-8.
    fn text(&mut self, val: &str) -> Made<Option<String>> {
        let bytes = if val == "-" { Vec::new() } else { repeated(val)? };
        self.total += bytes.len();
        Ok(String::from_utf8(bytes).ok())
    }

    /// Texts with commas between them; nothing is the empty list.
    fn texts(&mut self, val: &str) -> Made<Option<Vec<String>>> {
        let vals: Vec<&str> = if val.is_empty() { Vec::new() } else { val.split(',').collect() };
        self.total += 2 * vals.len();
        let texts: Made<Vec<Option<String>>> = vals.iter().map(|v| self.text(v)).collect();
        Ok(texts?.into_iter().collect())
    }

    /// What there is of a field, and a note where it can't be.
    fn noted<T: Default>(&mut self, field: u32, x: Option<T>) -> T {
        x.unwrap_or_else(|| {
            self.bad = Some(self.bad.map_or(field, |f| f.min(field)));
            T::default()
        })
    }

    fn optional(&mut self, field: u32, val: Option<&str>) -> Made<Option<String>> {
        let Some(val) = val else { return Ok(None) };
        let text = self.text(val)?;
        Ok(Some(self.noted(field, text)))
    }

    fn list(&mut self, field: u32, val: &str) -> Made<Vec<String>> {
        let texts = self.texts(val)?;
        Ok(self.noted(field, texts))
    }

    fn all_fit(&self) -> Made<()> {
        if self.limit && self.total > 65_535 {
            return Err(Fault::InputTooLong(self.total));
        }
        Ok(())
    }

    fn all_good(&self) -> Made<()> {
        self.all_fit()?;
        self.bad.map_or(Ok(()), |field| Err(Fault::Text(field)))
    }
}

pub fn repeated(val: &str) -> Made<Vec<u8>> {
    let (digits, times) = val.split_once('*').unwrap_or((val, "1"));
    if !times.bytes().all(|c| c.is_ascii_digit()) {
        return Err(Fault::Other);
    }
    let times: usize = times.parse().map_err(|_| Fault::Other)?;
    let v = needed(unhex(digits.as_bytes()))?;
    match v.len().checked_mul(times) {
        Some(1..=300_000) => Ok(v.repeat(times)),
        _ => Err(Fault::Other),
    }
}

fn ohc_flags(x: u8) -> OuterHeaderCreationFlags {
    let bit = |i: u8| x >> i & 1 == 1;
    OuterHeaderCreationFlags {
        gtpu_udp_ipv4: bit(0),
        gtpu_udp_ipv6: bit(1),
        udp_ipv4: bit(2),
        udp_ipv6: bit(3),
        ipv4: bit(4),
        ipv6: bit(5),
        ctag: bit(6),
        stag: bit(7),
    }
}

/// The paper's number of the rule by which a builder refuses.
pub fn rule(e: PfcpError) -> Fault {
    let PfcpError::ValidationError { builder, field, reason } = &e else {
        panic!("an error that the driver doesn't know: {e:?}")
    };
    Fault::Rule(match (builder.as_str(), field.as_str()) {
        ("FteidBuilder", "ipv4_address") => by_word(reason, &[("CHOOSE IPv4", 1), ("method", 3)]),
        ("FteidBuilder", "ipv6_address") => by_word(reason, &[("CHOOSE IPv6", 2)]),
        ("FteidBuilder", "choose_id") => 4,
        ("FteidBuilder", "teid") => 5,
        ("PfdContentsBuilder", "fields") => 6,
        _ => panic!("an error that the driver doesn't know: {e:?}"),
    })
}

// ---- the lines

pub const PFD_KEYS: [&str; 8] = ["fd", "url", "dn", "cp", "dnp", "afd", "aurl", "adnp"];

pub fn pfd_field(i: usize) -> u32 {
    11 + i as u32
}

fn record(o: &Options, line: &str) -> Made<Record> {
    let mut words = line.split(' ');
    let head = words.next().unwrap_or("");
    let tokens: Vec<Token> = words.map(token).collect();
    let (letter, call) = match head.split_once('.') {
        None => (head, ""),
        Some((letter, call)) if !call.is_empty() => (letter, call),
        Some(_) => return Err(Fault::Other),
    };
    match letter {
        "U" => Ok(Record::U(ue_ip_address(call, tokens)?)),
        "F" if call == "build" => Ok(Record::F(fteid_built(tokens)?)),
        "F" => Ok(Record::F(fteid(call, tokens)?)),
        "S" => Ok(Record::S(fseid(call, tokens)?)),
        "N" => Ok(Record::N(node_id(o, call, tokens)?)),
        "O" => Ok(Record::O(outer_header_creation(call, tokens)?)),
        "P" if call == "build" => Ok(Record::P(pfd_built(o, tokens)?)),
        "P" if call.is_empty() => Ok(Record::P(pfd_plain(o, tokens)?)),
        "P" => Ok(Record::P(pfd_made(o, call, tokens)?)),
        "H" if call.is_empty() => Ok(Record::H(header(tokens)?)),
        _ => Err(Fault::Other),
    }
}

fn ue_ip_address(call: &str, tokens: Vec<Token>) -> Made<UeIpAddress> {
    match call {
        "" => {
            let f = Fields::new(tokens, &["flags", "v4", "v6", "db", "pl"])?;
            let x = f.num_or_0("flags", 1)?;
            if x > 0x7F {
                return Err(Fault::Other);
            }
            Ok(UeIpAddress {
                v6: x & 1 != 0,
                v4: x & 2 != 0,
                source_destination: x & 4 != 0,
                ipv6_prefix_delegation: x & 8 != 0,
                choose_ipv4: x & 16 != 0,
                choose_ipv6: x & 32 != 0,
                ipv6_prefix_length_present: x & 64 != 0,
                ipv4_address: f.v4()?,
                ipv6_address: f.v6()?,
                ipv6_prefix_delegation_bits: f.num("db", 1)?.map(|x| x as u8),
                ipv6_prefix_length: f.num("pl", 1)?.map(|x| x as u8),
            })
        }
        "new" => {
            let f = Fields::new(tokens, &["v4", "v6"])?;
            Ok(UeIpAddress::new(f.v4()?, f.v6()?))
        }
        "choose" => {
            let f = Fields::new(tokens, &["ch4", "ch6"])?;
            Ok(UeIpAddress::choose(f.bare("ch4")?, f.bare("ch6")?))
        }
        _ => Err(Fault::Other),
    }
}

fn fteid(call: &str, tokens: Vec<Token>) -> Made<Fteid> {
    if !["", "new", "new_with_choose"].contains(&call) {
        return fteid_short(call, tokens);
    }
    let f = Fields::new(tokens, &["flags", "teid", "v4", "v6", "cid"])?;
    let x = f.num_or_0("flags", 1)?;
    if x > 15 || (call == "new" && x > 3) {
        return Err(Fault::Other);
    }
    let (v4, v6, ch, chid) = (x & 1 != 0, x & 2 != 0, x & 4 != 0, x & 8 != 0);
    let teid = Teid(f.num_or_0("teid", 4)? as u32);
    let choose_id = f.num_or_0("cid", 1)? as u8;
    let (ipv4_address, ipv6_address) = (f.v4()?, f.v6()?);
    Ok(match call {
        "" => Fteid { v4, v6, ch, chid, teid, ipv4_address, ipv6_address, choose_id },
        "new" => Fteid::new(v4, v6, teid, ipv4_address, ipv6_address, choose_id),
        _ => Fteid::new_with_choose(v4, v6, ch, chid, teid, ipv4_address, ipv6_address, choose_id),
    })
}

fn fteid_short(call: &str, tokens: Vec<Token>) -> Made<Fteid> {
    let f = Fields::new(tokens, &["teid", "v4", "v6"])?;
    let teid = Teid(f.num_or_0("teid", 4)? as u32);
    Ok(match (call, f.v4()?, f.v6()?) {
        ("ipv4", Some(a), None) => Fteid::ipv4(teid, a),
        ("ipv6", None, Some(a)) => Fteid::ipv6(teid, a),
        ("dual_stack", Some(a), Some(b)) => Fteid::dual_stack(teid, a, b),
        ("choose_ipv4", None, None) => Fteid::choose_ipv4(teid),
        ("choose_ipv6", None, None) => Fteid::choose_ipv6(teid),
        ("choose_dual_stack", None, None) => Fteid::choose_dual_stack(teid),
        _ => return Err(Fault::Other),
    })
}

/// The tokens are the builder's calls, in order.
fn fteid_built(tokens: Vec<Token>) -> Made<Fteid> {
    let mut b = Fteid::builder();
    for t in &tokens {
        b = match (t.key, t.op) {
            ("teid", "=") => b.teid(num(t.val, 4)? as u32),
            ("v4", "=") => b.ipv4(ipv4(t.val)?),
            ("v6", "=") => b.ipv6(ipv6(t.val)?),
            ("dual", "=") => {
                let (v4, v6) = needed(t.val.split_once(','))?;
                b.dual_stack(ipv4(v4)?, ipv6(v6)?)
            }
            ("ch4", "") => b.choose_ipv4(),
            ("ch6", "") => b.choose_ipv6(),
            ("chdual", "") => b.choose_dual_stack(),
            ("cid", "=") => b.choose_id(num(t.val, 1)? as u8),
            _ => return Err(Fault::Other),
        };
    }
    b.build().map_err(rule)
}

fn fseid(call: &str, tokens: Vec<Token>) -> Made<Fseid> {
    match call {
        "" => {
            let f = Fields::new(tokens, &["flags", "seid", "v4", "v6"])?;
            let x = f.num_or_0("flags", 1)?;
            if x > 3 {
                return Err(Fault::Other);
            }
            Ok(Fseid {
                v6: x & 1 != 0,
                v4: x & 2 != 0,
                seid: Seid(f.num_or_0("seid", 8)?),
                ipv4_address: f.v4()?,
                ipv6_address: f.v6()?,
            })
        }
        "new" => {
            let f = Fields::new(tokens, &["seid", "v4", "v6"])?;
            Ok(Fseid::new(f.num_or_0("seid", 8)?, f.v4()?, f.v6()?))
        }
        _ => Err(Fault::Other),
    }
}

fn node_id(o: &Options, call: &str, tokens: Vec<Token>) -> Made<NodeId> {
    let f = Fields::new(tokens, &["v4", "v6", "name"])?;
    let mut texts = Texts::new(o);
    let name = texts.optional(10, f.get("name")?)?;
    let (v4, v6) = (f.v4()?, f.v6()?);
    let node = match (call, v4, v6, name) {
        ("", Some(a), None, None) => NodeId::IPv4(a),
        ("", None, Some(a), None) => NodeId::IPv6(a),
        ("", None, None, Some(s)) => NodeId::FQDN(s),
        ("new_ipv4", Some(a), None, None) => NodeId::new_ipv4(a),
        ("new_ipv6", None, Some(a), None) => NodeId::new_ipv6(a),
        ("new_fqdn", None, None, Some(s)) => NodeId::new_fqdn(&s),
        _ => return Err(Fault::Other),
    };
    texts.all_good()?;
    Ok(node)
}

fn outer_header_creation(call: &str, tokens: Vec<Token>) -> Made<OuterHeaderCreation> {
    if let Some(set) = call.strip_prefix("flags.") {
        if !tokens.is_empty() {
            return Err(Fault::Other);
        }
        return Ok(OuterHeaderCreation::new(ohc_flag_set(set)?));
    }
    let f = Fields::new(tokens, &["flags", "teid", "v4", "v6", "port", "ctag", "stag"])?;
    let flags = f.num("flags", 1)?.map(|x| x as u8);
    let teid = f.num("teid", 4)?.map(|x| Teid(x as u32));
    let port = f.num("port", 2)?.map(|x| x as u16);
    let (ctag, stag) = (f.num("ctag", 4)?, f.num("stag", 4)?);
    let (v4, v6) = (f.v4()?, f.v6()?);
    if call.is_empty() {
        return Ok(OuterHeaderCreation {
            description: ohc_flags(flags.unwrap_or(0)),
            teid,
            ipv4_address: v4,
            ipv6_address: v6,
            port_number: port,
            ctag: ctag.map(|x| x as u32),
            stag: stag.map(|x| x as u32),
        });
    }
    let mut r = match (call, flags, teid, v4, v6, port) {
        ("new", Some(x), None, None, None, None) => OuterHeaderCreation::new(ohc_flags(x)),
        ("gtpu_ipv4", None, Some(t), Some(a), None, None) => OuterHeaderCreation::gtpu_ipv4(t, a),
        ("gtpu_ipv6", None, Some(t), None, Some(a), None) => OuterHeaderCreation::gtpu_ipv6(t, a),
        ("udp_ipv4", None, None, Some(a), None, Some(p)) => OuterHeaderCreation::udp_ipv4(a, p),
        _ => return Err(Fault::Other),
    };
    // with_ctag and with_stag in the order of the tokens.
    for t in &f.0 {
        match t.key {
            "ctag" => r = r.with_ctag(num(t.val, 4)? as u32),
            "stag" => r = r.with_stag(num(t.val, 4)? as u32),
            _ => {}
        }
    }
    Ok(r)
}

fn ohc_flag_set(name: &str) -> Made<OuterHeaderCreationFlags> {
    Ok(match name {
        "new" => OuterHeaderCreationFlags::new(),
        "default" => OuterHeaderCreationFlags::default(),
        "gtpu_ipv4" => OuterHeaderCreationFlags::gtpu_ipv4(),
        "gtpu_ipv6" => OuterHeaderCreationFlags::gtpu_ipv6(),
        "udp_ipv4" => OuterHeaderCreationFlags::udp_ipv4(),
        "udp_ipv6" => OuterHeaderCreationFlags::udp_ipv6(),
        _ => return Err(Fault::Other),
    })
}

fn pfd_plain(o: &Options, tokens: Vec<Token>) -> Made<PfdContents> {
    let f = Fields::new(
        tokens,
        &["flags", "fd", "url", "dn", "cp", "dnp", "afd", "aurl", "adnp"],
    )?;
    let flags = f.num_or_0("flags", 1)? as u8;
    let mut t = Texts::new(o);
    let mut single = |i: usize| t.optional(pfd_field(i), f.get(PFD_KEYS[i])?);
    let (fd, url, dn, cp, dnp) = (single(0)?, single(1)?, single(2)?, single(3)?, single(4)?);
    let mut list = |i: usize| t.list(pfd_field(i), f.get(PFD_KEYS[i])?.unwrap_or(""));
    let (afd, aurl, adnp) = (list(5)?, list(6)?, list(7)?);
    t.all_good()?;
    Ok(PfdContents {
        flags,
        flow_description: fd,
        url,
        domain_name: dn,
        custom_pfd_content: cp,
        domain_name_protocol: dnp,
        additional_flow_description: afd,
        additional_url: aurl,
        additional_domain_name_and_protocol: adnp,
    })
}

fn pfd_made(o: &Options, call: &str, tokens: Vec<Token>) -> Made<PfdContents> {
    let f = Fields::new(tokens, &["fd", "url", "dn", "dnp"])?;
    let mut t = Texts::new(o);
    let fd = t.optional(11, f.get("fd")?)?;
    let url = t.optional(12, f.get("url")?)?;
    let dn = t.optional(13, f.get("dn")?)?;
    let dnp = t.optional(15, f.get("dnp")?)?;
    let made = match (call, fd, url, dn, dnp) {
        ("flow_description", Some(a), None, None, None) => PfdContents::flow_description(a),
        ("url", None, Some(a), None, None) => PfdContents::url(a),
        ("domain_name", None, None, Some(a), None) => PfdContents::domain_name(a),
        ("flow_and_url", Some(a), Some(b), None, None) => PfdContents::flow_and_url(a, b),
        ("domain_and_protocol", None, None, Some(a), Some(b)) => {
            PfdContents::domain_and_protocol(a, b)
        }
        _ => return Err(Fault::Other),
    };
    t.all_good()?;
    made.map_err(rule)
}

/// The tokens are the builder's calls, in order: `=` sets a text or a whole list, `+=` adds to a list. What is set may
/// be set anew, so a text that isn't UTF-8 is refused where an entry is added to its list, or where it stands at the end.
fn pfd_built(o: &Options, tokens: Vec<Token>) -> Made<PfdContents> {
    let mut texts = Texts::new(o);
    let mut calls = Vec::new();
    for t in &tokens {
        let i = needed(PFD_KEYS.iter().position(|k| *k == t.key))?;
        let strings = match (t.op, i >= 5) {
            ("=", true) => texts.texts(t.val)?,
            ("=", false) => texts.text(t.val)?.map(|s| vec![s]),
            ("+=", true) => {
                texts.total += 2;
                texts.text(t.val)?.map(|s| vec![s])
            }
            _ => return Err(Fault::Other),
        };
        calls.push((i, t.op, strings));
    }
    texts.all_fit()?;
    let mut bad = [false; 8];
    let mut b = PfdContents::builder();
    for (i, op, strings) in calls {
        if op == "+=" && (bad[i] || strings.is_none()) {
            return Err(Fault::Text(pfd_field(i)));
        }
        bad[i] = strings.is_none();
        let mut s = strings.unwrap_or_else(|| vec![String::new()]);
        b = match (PFD_KEYS[i], op) {
            ("fd", _) => b.flow_description(s.remove(0)),
            ("url", _) => b.url(s.remove(0)),
            ("dn", _) => b.domain_name(s.remove(0)),
            ("cp", _) => b.custom_pfd_content(s.remove(0)),
            ("dnp", _) => b.domain_name_protocol(s.remove(0)),
            ("afd", "+=") => b.add_additional_flow_description(s.remove(0)),
            ("aurl", "+=") => b.add_additional_url(s.remove(0)),
            ("adnp", "+=") => b.add_additional_domain_name_and_protocol(s.remove(0)),
            ("afd", _) => b.additional_flow_descriptions(s),
            ("aurl", _) => b.additional_urls(s),
            (_, _) => b.additional_domain_names_and_protocols(s),
        };
    }
    if let Some(i) = bad.iter().position(|is_bad| *is_bad) {
        return Err(Fault::Text(pfd_field(i)));
    }
    b.build().map_err(rule)
}

/// The record, where its written form has room.
fn header(tokens: Vec<Token>) -> Made<Header> {
    let f = Fields::new(tokens, &["ver", "fo", "mp", "s", "type", "len", "seid", "seq", "prio", "room"])?;
    let room = raw::room(f.get("room")?)?;
    let raw = f.num_or_0("type", 1)? as u8;
    let h = Header {
        version: f.num_or_0("ver", 1)? as u8,
        has_fo: f.bare("fo")?,
        has_mp: f.bare("mp")?,
        has_seid: f.bare("s")?,
        message_type: MsgType::from(raw),
        length: f.num_or_0("len", 2)? as u16,
        seid: Seid(f.num_or_0("seid", 8)?),
        sequence_number: SequenceNumber(f.num_or_0("seq", 4)? as u32),
        message_priority: f.num_or_0("prio", 1)? as u8,
        raw_message_type: raw,
    };
    match h.marshal().len() {
        n if n > room => Err(Fault::NoRoom(n)),
        _ => Ok(h),
    }
}
