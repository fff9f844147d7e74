//! PFD Contents and its builder.
//!
//! The additional lists are coded as the original codes them, which isn't how TS 29.244 does: read the first section of
//! `docs/DIFFERENCES.md` before you exchange such lists with other software.

use super::LIMIT;
use crate::error::{Kind, Refusal, Why};
use crate::image::{Image, FLAGS, GIVEN};
use alloc::string::String;
use alloc::vec;
use alloc::vec::Vec;

/// How traffic is detected: filter rules, URLs, domain names and texts of one's own.
#[derive(Debug, Clone, PartialEq, Eq)]
pub struct PfdContents {
    /// The whole flag byte. Written as it stands, whatever fields there are.
    pub flags: u8,
    /// Bit 0: a filter rule.
    pub flow_description: Option<String>,
    /// Bit 1: a URL.
    pub url: Option<String>,
    /// Bit 2: a domain name.
    pub domain_name: Option<String>,
    /// Bit 3: custom PFD content.
    pub custom_pfd_content: Option<String>,
    /// Bit 4: the domain name's protocol.
    pub domain_name_protocol: Option<String>,
    /// Bit 5: more filter rules.
    pub additional_flow_description: Vec<String>,
    /// Bit 6: more URLs.
    pub additional_url: Vec<String>,
    /// Bit 7: more domain names and protocols.
    pub additional_domain_name_and_protocol: Vec<String>,
}

kind!(PfdContents, Kind::PfdContents);
marshal_texts!(PfdContents);

/// Where the five texts stand in an image, each a place and a length.
const TEXTS: usize = 42;
/// Where the three lists stand, each a place, a length in bytes and a count.
const LISTS: usize = 122;

/// The bytes before the texts: flags, and a spare byte.
const FIRST: usize = 2;
/// The bytes of a text's length.
const LENGTH: usize = 2;

impl PfdContents {
    /// A builder with nothing set.
    pub fn builder() -> PfdContentsBuilder {
        PfdContentsBuilder::new()
    }

    /// A filter rule alone.
    ///
    /// # Errors
    /// As [`build`](PfdContentsBuilder::build).
    pub fn flow_description<S: Into<String>>(flow_description: S) -> Result<Self, Refusal> {
        Self::builder().flow_description(flow_description).build()
    }

    /// A URL alone.
    ///
    /// # Errors
    /// As [`build`](PfdContentsBuilder::build).
    pub fn url<S: Into<String>>(url: S) -> Result<Self, Refusal> {
        Self::builder().url(url).build()
    }

    /// A domain name alone.
    ///
    /// # Errors
    /// As [`build`](PfdContentsBuilder::build).
    pub fn domain_name<S: Into<String>>(domain_name: S) -> Result<Self, Refusal> {
        Self::builder().domain_name(domain_name).build()
    }

    /// A filter rule and a URL.
    ///
    /// # Errors
    /// As [`build`](PfdContentsBuilder::build).
    pub fn flow_and_url<S1: Into<String>, S2: Into<String>>(flow_description: S1, url: S2) -> Result<Self, Refusal> {
        Self::builder().flow_description(flow_description).url(url).build()
    }

    /// A domain name and its protocol.
    ///
    /// # Errors
    /// As [`build`](PfdContentsBuilder::build).
    pub fn domain_and_protocol<S1: Into<String>, S2: Into<String>>(
        domain_name: S1,
        protocol: S2,
    ) -> Result<Self, Refusal> {
        Self::builder().domain_name(domain_name).domain_name_protocol(protocol).build()
    }

    fn of_image(image: &Image<194>, payload: &[u8]) -> Self {
        let text = |i: u8| image.given(i).then(|| text_of(image, payload, i));
        let list = |i| list_of(image, payload, i);
        PfdContents {
            flags: image.0[FLAGS],
            flow_description: text(0),
            url: text(1),
            domain_name: text(2),
            custom_pfd_content: text(3),
            domain_name_protocol: text(4),
            additional_flow_description: list(0),
            additional_url: list(1),
            additional_domain_name_and_protocol: list(2),
        }
    }

    /// The image, and the slice of all texts: each as it stands, the entries of a list in wire form.
    fn to_image(&self) -> (Image<194>, Vec<u8>) {
        let mut image = Image::new();
        let mut slice = Vec::with_capacity(self.slice_len());
        let texts = self.texts();
        image.0[FLAGS] = self.flags;
        image.set_bits(GIVEN, &texts.map(|text| text.is_some()));
        for (i, text) in texts.iter().enumerate() {
            if let Some(text) = text {
                lay_text(&mut image, &mut slice, TEXTS + 16 * i, text);
            }
        }
        for (i, list) in self.lists().iter().enumerate() {
            if !list.is_empty() {
                lay_list(&mut image, &mut slice, LISTS + 24 * i, list);
            }
        }
        (image, slice)
    }

    /// As many bytes as the written form has, as far as one may have them.
    fn room(&self) -> usize {
        let lengths = LENGTH * self.texts().iter().flatten().count();
        LIMIT.min(FIRST + lengths + self.slice_len())
    }

    /// The length of the slice of all texts.
    fn slice_len(&self) -> usize {
        let texts: usize = self.texts().iter().flatten().map(|text| text.len()).sum();
        let entries: usize = self.lists().iter().flat_map(|list| list.iter()).map(|text| LENGTH + text.len()).sum();
        texts + entries
    }

    /// The five texts, in wire order.
    fn texts(&self) -> [Option<&str>; 5] {
        [
            self.flow_description.as_deref(),
            self.url.as_deref(),
            self.domain_name.as_deref(),
            self.custom_pfd_content.as_deref(),
            self.domain_name_protocol.as_deref(),
        ]
    }

    /// The three lists, in wire order.
    fn lists(&self) -> [&[String]; 3] {
        [&self.additional_flow_description, &self.additional_url, &self.additional_domain_name_and_protocol]
    }

    /// A bit for each text that is there and each list that has an entry.
    fn flags_of_fields(&self) -> u8 {
        let texts = self.texts().map(|text| text.is_some());
        let lists = self.lists().map(|list| !list.is_empty());
        texts.iter().chain(&lists).rev().fold(0, |flags, there| flags << 1 | u8::from(*there))
    }
}

fn text_of(image: &Image<194>, payload: &[u8], i: u8) -> String {
    let at = TEXTS + 16 * usize::from(i);
    super::text(payload, image.count(at), image.count(at + 8))
}

/// The texts of a run, a field behind the other.
fn list_of(image: &Image<194>, payload: &[u8], i: usize) -> Vec<String> {
    let at = LISTS + 24 * i;
    let mut place = image.count(at);
    let count = image.count(at + 16);
    let mut list = Vec::with_capacity(count);
    for _ in 0..count {
        let len = usize::from(u16::from_be_bytes([payload[place], payload[place + 1]]));
        list.push(super::text(payload, place + LENGTH, len));
        place += LENGTH + len;
    }
    list
}

fn lay_text(image: &mut Image<194>, slice: &mut Vec<u8>, at: usize, text: &str) {
    image.set_count(at, slice.len());
    image.set_count(at + 8, text.len());
    slice.extend_from_slice(text.as_bytes());
}

/// The length of an entry above 65,535 bytes doesn't matter: the slice is longer than that too, and is refused.
fn lay_list(image: &mut Image<194>, slice: &mut Vec<u8>, at: usize, list: &[String]) {
    let place = slice.len();
    for text in list {
        let len = u16::try_from(text.len()).unwrap_or(u16::MAX);
        slice.extend_from_slice(&len.to_be_bytes());
        slice.extend_from_slice(text.as_bytes());
    }
    image.set_count(at, place);
    image.set_count(at + 8, slice.len() - place);
    image.set_count(at + 16, list.len());
}

/// Builds a [`PfdContents`]. The last setting stands.
#[derive(Debug, Default)]
pub struct PfdContentsBuilder {
    flow_description: Option<String>,
    url: Option<String>,
    domain_name: Option<String>,
    custom_pfd_content: Option<String>,
    domain_name_protocol: Option<String>,
    additional_flow_description: Vec<String>,
    additional_url: Vec<String>,
    additional_domain_name_and_protocol: Vec<String>,
}

impl PfdContentsBuilder {
    /// A builder with nothing set.
    pub fn new() -> Self {
        Self::default()
    }

    /// Sets the filter rule.
    pub fn flow_description<S: Into<String>>(self, flow_description: S) -> Self {
        PfdContentsBuilder { flow_description: Some(flow_description.into()), ..self }
    }

    /// Sets the URL.
    pub fn url<S: Into<String>>(self, url: S) -> Self {
        PfdContentsBuilder { url: Some(url.into()), ..self }
    }

    /// Sets the domain name.
    pub fn domain_name<S: Into<String>>(self, domain_name: S) -> Self {
        PfdContentsBuilder { domain_name: Some(domain_name.into()), ..self }
    }

    /// Sets the custom PFD content.
    pub fn custom_pfd_content<S: Into<String>>(self, custom_pfd_content: S) -> Self {
        PfdContentsBuilder { custom_pfd_content: Some(custom_pfd_content.into()), ..self }
    }

    /// Sets the domain name's protocol.
    pub fn domain_name_protocol<S: Into<String>>(self, domain_name_protocol: S) -> Self {
        PfdContentsBuilder { domain_name_protocol: Some(domain_name_protocol.into()), ..self }
    }

    /// Adds a filter rule to the list.
    pub fn add_additional_flow_description<S: Into<String>>(mut self, flow_description: S) -> Self {
        self.additional_flow_description.push(flow_description.into());
        self
    }

    /// Sets the list of more filter rules.
    pub fn additional_flow_descriptions<I, S>(self, flow_descriptions: I) -> Self
    where
        I: IntoIterator<Item = S>,
        S: Into<String>,
    {
        PfdContentsBuilder { additional_flow_description: owned(flow_descriptions), ..self }
    }

    /// Adds a URL to the list.
    pub fn add_additional_url<S: Into<String>>(mut self, url: S) -> Self {
        self.additional_url.push(url.into());
        self
    }

    /// Sets the list of more URLs.
    pub fn additional_urls<I, S>(self, urls: I) -> Self
    where
        I: IntoIterator<Item = S>,
        S: Into<String>,
    {
        PfdContentsBuilder { additional_url: owned(urls), ..self }
    }

    /// Adds a domain name and protocol to the list.
    pub fn add_additional_domain_name_and_protocol<S: Into<String>>(mut self, domain_name_and_protocol: S) -> Self {
        self.additional_domain_name_and_protocol.push(domain_name_and_protocol.into());
        self
    }

    /// Sets the list of more domain names and protocols.
    pub fn additional_domain_names_and_protocols<I, S>(self, domain_names_and_protocols: I) -> Self
    where
        I: IntoIterator<Item = S>,
        S: Into<String>,
    {
        PfdContentsBuilder { additional_domain_name_and_protocol: owned(domain_names_and_protocols), ..self }
    }

    /// The PFD Contents, with a flag for each text that is there and each list that has an entry.
    ///
    /// # Errors
    /// Refusal 5 where the texts have more than 65,535 bytes together, and refusal 9 with rule 6 where nothing is set.
    pub fn build(self) -> Result<PfdContents, Refusal> {
        let mut built = PfdContents {
            flags: 0,
            flow_description: self.flow_description,
            url: self.url,
            domain_name: self.domain_name,
            custom_pfd_content: self.custom_pfd_content,
            domain_name_protocol: self.domain_name_protocol,
            additional_flow_description: self.additional_flow_description,
            additional_url: self.additional_url,
            additional_domain_name_and_protocol: self.additional_domain_name_and_protocol,
        };
        built.flags = built.flags_of_fields();
        let refused = |why| Err(Refusal { kind: Kind::PfdContents, why });
        let length = built.slice_len();
        if length > LIMIT {
            return refused(Why::InputTooLong { length });
        }
        if built.flags == 0 {
            return refused(Why::Unbuilt { rule: 6 });
        }
        Ok(built)
    }
}

fn owned<S: Into<String>>(texts: impl IntoIterator<Item = S>) -> Vec<String> {
    texts.into_iter().map(Into::into).collect()
}
