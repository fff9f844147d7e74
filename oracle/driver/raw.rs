//! Raw lines: texts by their places in a slice that is lent, and an output of any room. The published Rust has neither, so
//! what refusals 5 to 8 say of them is written here from the paper. What isn't refused goes through the published records.

use super::build::{needed, pfd_field, repeated, rule, token, Fault, Fields, Made, Token, PFD_KEYS};
use super::line::hex;
use super::payload;
use super::record::Record;
use super::Options;
use crate::ie::node_id::NodeId;
use crate::ie::pfd_contents::PfdContents;
use std::fmt::Write;

/// The most bytes of a slice, and of an output.
const SLICE: usize = 131_072;
const ROOM: usize = 65_535;

/// None for a line of another form.
pub fn answer(o: &Options, line: &str, out: &mut String) -> Option<Made<()>> {
    let mut words = line.split(' ');
    let head = words.next().unwrap_or("");
    let tokens: Vec<Token> = words.map(token).collect();
    Some(match head {
        "N.read" | "P.read" => read(o, head.as_bytes()[0], tokens, out),
        "N.raw" => node_id(tokens, out),
        "P.raw" => pfd_plain(tokens, out),
        "P.raw_build" => pfd_built(tokens, out),
        _ => return None,
    })
}

// ---- values

fn number(val: &str) -> Made<usize> {
    if !val.bytes().all(|c| c.is_ascii_digit()) {
        return Err(Fault::Other);
    }
    val.parse().map_err(|_| Fault::Other)
}

/// The output's length.
pub fn room(val: Option<&str>) -> Made<usize> {
    match val.map_or(Ok(ROOM), number)? {
        n if n > ROOM => Err(Fault::Other),
        n => Ok(n),
    }
}

/// PLACE+LENGTH
fn span(val: &str) -> Made<(usize, usize)> {
    let (place, len) = needed(val.split_once('+'))?;
    Ok((number(place)?, number(len)?))
}

/// PLACE+BYTES*COUNT
#[derive(Clone, Copy, Default)]
struct Run {
    place: usize,
    len: usize,
    count: usize,
}

fn run(val: &str) -> Made<Run> {
    let (at, count) = needed(val.split_once('*'))?;
    let (place, len) = span(at)?;
    Ok(Run { place, len, count: number(count)? })
}

/// Texts with commas between them, one behind the other; nothing where there is no such token.
fn slice(val: Option<&str>) -> Made<Vec<u8>> {
    let mut all = Vec::new();
    for piece in val.into_iter().flat_map(|v| v.split(',')) {
        if piece != "-" {
            all.extend(repeated(piece)?);
        }
    }
    if all.len() > SLICE {
        return Err(Fault::Other);
    }
    Ok(all)
}

/// What every line that writes has: the slice, the room, and whether its answer leaves the bytes out.
struct Frame {
    slice: Vec<u8>,
    room: usize,
    brief: bool,
}

impl Frame {
    fn of(slice_val: Option<&str>, room_val: Option<&str>, brief: bool) -> Made<Frame> {
        Ok(Frame { room: room(room_val)?, slice: slice(slice_val)?, brief })
    }

    /// Refusal 5.
    fn fits(&self) -> Made<()> {
        match self.slice.len() {
            n if n > 65_535 => Err(Fault::InputTooLong(n)),
            _ => Ok(()),
        }
    }

    /// Refusals 7 and 8, and what is written.
    fn written(&self, r: Record, out: &mut String) -> Made<()> {
        let w = r.marshal();
        if w.len() > 65_535 {
            return Err(Fault::OutputTooLong);
        }
        if w.len() > self.room {
            return Err(Fault::NoRoom(w.len()));
        }
        let bytes = if self.brief { "-".into() } else { hex(&w) };
        write!(out, "0 {} {bytes}", w.len()).unwrap();
        Ok(())
    }

    /// A text that is there whole and is UTF-8.
    fn text(&self, (place, len): (usize, usize)) -> Option<String> {
        let bytes = self.slice.get(place..place.checked_add(len)?)?;
        String::from_utf8(bytes.to_vec()).ok()
    }

    /// A list that is empty, or whose run is there whole and is just so many fields.
    fn list(&self, x: Run) -> Option<Vec<String>> {
        if x.len == 0 && x.count == 0 {
            return Some(Vec::new());
        }
        let mut rest = self.slice.get(x.place..x.place.checked_add(x.len)?)?;
        let mut texts = Vec::new();
        while let [high, low, behind @ ..] = rest {
            let n = usize::from(*high) << 8 | usize::from(*low);
            texts.push(String::from_utf8(behind.get(..n)?.to_vec()).ok()?);
            rest = &behind[n..];
        }
        (rest.is_empty() && texts.len() == x.count).then_some(texts)
    }

    /// The bytes of a whole good field at a place.
    fn field_len(&self, place: usize) -> Option<usize> {
        let bytes = self.slice.get(place..place.checked_add(2)?)?;
        let n = usize::from(bytes[0]) << 8 | usize::from(bytes[1]);
        self.text((place + 2, n)).map(|_| 2 + n)
    }

    /// A list with the entry at a place, where it may be added.
    fn added(&self, x: Run, place: usize) -> Option<Run> {
        let is_empty = self.list(x)?.is_empty();
        let len = self.field_len(place)?;
        if is_empty {
            return Some(Run { place, len, count: 1 });
        }
        (place == x.place + x.len).then_some(Run { place: x.place, len: x.len + len, count: x.count + 1 })
    }
}

// ---- the lines

fn read(o: &Options, kind: u8, tokens: Vec<Token>, out: &mut String) -> Made<()> {
    let f = Fields::new(tokens, &["slice", "brief"])?;
    let bytes = slice(f.get("slice")?)?;
    let brief = f.bare("brief")?;
    payload::of_kind(o, kind, &bytes, brief, out);
    Ok(())
}

fn node_id(tokens: Vec<Token>, out: &mut String) -> Made<()> {
    let f = Fields::new(tokens, &["slice", "room", "brief", "name"])?;
    let frame = Frame::of(f.get("slice")?, f.get("room")?, f.bare("brief")?)?;
    let name = span(needed(f.get("name")?)?)?;
    frame.fits()?;
    let name = frame.text(name).ok_or(Fault::Text(10))?;
    frame.written(Record::N(NodeId::FQDN(name)), out)
}

/// The fields of a record by their places.
#[derive(Default)]
struct Places {
    texts: [Option<(usize, usize)>; 5],
    lists: [Run; 3],
}

impl Places {
    fn set(&mut self, i: usize, val: &str) -> Made<()> {
        match i {
            0..=4 => self.texts[i] = Some(span(val)?),
            _ => self.lists[i - 5] = run(val)?,
        }
        Ok(())
    }

    /// The record, in wire order, with no flags.
    fn record(&self, frame: &Frame) -> Made<PfdContents> {
        let mut texts = Vec::new();
        for (i, x) in self.texts.iter().enumerate() {
            texts.push(x.map(|x| frame.text(x).ok_or(Fault::Text(pfd_field(i)))).transpose()?);
        }
        let mut lists = Vec::new();
        for (i, x) in self.lists.iter().enumerate() {
            lists.push(frame.list(*x).ok_or(Fault::Text(pfd_field(5 + i)))?);
        }
        let (mut texts, mut lists) = (texts.into_iter(), lists.into_iter());
        let mut text = || texts.next().flatten();
        let mut list = || lists.next().unwrap_or_default();
        Ok(PfdContents {
            flags: 0,
            flow_description: text(),
            url: text(),
            domain_name: text(),
            custom_pfd_content: text(),
            domain_name_protocol: text(),
            additional_flow_description: list(),
            additional_url: list(),
            additional_domain_name_and_protocol: list(),
        })
    }
}

fn pfd_plain(tokens: Vec<Token>, out: &mut String) -> Made<()> {
    let known = [&["slice", "room", "brief", "flags"][..], &PFD_KEYS[..]].concat();
    let f = Fields::new(tokens, &known)?;
    let frame = Frame::of(f.get("slice")?, f.get("room")?, f.bare("brief")?)?;
    let flags = f.num_or_0("flags", 1)? as u8;
    let mut places = Places::default();
    for (i, key) in PFD_KEYS.iter().enumerate() {
        if let Some(val) = f.get(key)? {
            places.set(i, val)?;
        }
    }
    frame.fits()?;
    let record = places.record(&frame)?;
    frame.written(Record::P(PfdContents { flags, ..record }), out)
}

/// The calls of a builder, in order; slice, room and brief anywhere, once. A refused call ends the line.
fn pfd_built(tokens: Vec<Token>, out: &mut String) -> Made<()> {
    let is_frame = |t: &Token| ["slice", "room", "brief"].contains(&t.key);
    let (about, calls): (Vec<Token>, Vec<Token>) = tokens.into_iter().partition(is_frame);
    let f = Fields::new(about, &["slice", "room", "brief"])?;
    let frame = Frame::of(f.get("slice")?, f.get("room")?, f.bare("brief")?)?;
    let mut places = Places::default();
    let mut first: Made<()> = frame.fits();
    for t in &calls {
        let i = needed(PFD_KEYS.iter().position(|k| *k == t.key))?;
        match (t.op, i >= 5) {
            ("=", _) => places.set(i, t.val)?,
            ("+=", true) => {
                let place = number(t.val)?;
                if first.is_ok() {
                    match frame.added(places.lists[i - 5], place) {
                        Some(list) => places.lists[i - 5] = list,
                        None => first = Err(Fault::Text(pfd_field(i))),
                    }
                }
            }
            _ => return Err(Fault::Other),
        }
    }
    first?;
    let r = places.record(&frame)?;
    let mut b = PfdContents::builder()
        .additional_flow_descriptions(r.additional_flow_description)
        .additional_urls(r.additional_url)
        .additional_domain_names_and_protocols(r.additional_domain_name_and_protocol);
    if let Some(s) = r.flow_description {
        b = b.flow_description(s);
    }
    if let Some(s) = r.url {
        b = b.url(s);
    }
    if let Some(s) = r.domain_name {
        b = b.domain_name(s);
    }
    if let Some(s) = r.custom_pfd_content {
        b = b.custom_pfd_content(s);
    }
    if let Some(s) = r.domain_name_protocol {
        b = b.domain_name_protocol(s);
    }
    frame.written(Record::P(b.build().map_err(rule)?), out)
}
