//! F-TEID and its builder.

use crate::error::{Kind, Refusal, Why};
use crate::image::{Image, FLAGS, GIVEN};
use crate::types::Teid;
use alloc::vec::Vec;
use core::net::{Ipv4Addr, Ipv6Addr};

/// A tunnel's end: its identifier and addresses, or the wish that the user plane choose them.
#[derive(Debug, Clone, PartialEq, Eq)]
pub struct Fteid {
    /// The V4 flag, bit 0.
    pub v4: bool,
    /// The V6 flag, bit 1.
    pub v6: bool,
    /// The CH flag, bit 2: the user plane chooses.
    pub ch: bool,
    /// The CHID flag, bit 3: the choice has an ID.
    pub chid: bool,
    /// The identifier, 0 where it is to be chosen.
    pub teid: Teid,
    /// The IPv4 address, read where V4 is set and CH isn't.
    pub ipv4_address: Option<Ipv4Addr>,
    /// The IPv6 address, read where V6 is set and CH isn't.
    pub ipv6_address: Option<Ipv6Addr>,
    /// The choose ID, 0 where there is none.
    pub choose_id: u8,
}

kind!(Fteid, Kind::Fteid);
marshal_short!(Fteid, 25);

const TEID: usize = 42;
const CHOOSE_ID: usize = 50;
const IPV4: usize = 51;
const IPV6: usize = 55;

impl Fteid {
    /// An F-TEID that leaves nothing to choose. The last argument has no effect, as in the original.
    pub fn new(
        v4: bool,
        v6: bool,
        teid: impl Into<Teid>,
        ipv4_address: Option<Ipv4Addr>,
        ipv6_address: Option<Ipv6Addr>,
        _choose_id: u8,
    ) -> Self {
        Fteid { v4, v6, ch: false, chid: false, teid: teid.into(), ipv4_address, ipv6_address, choose_id: 0 }
    }

    /// With `ch`, TEID and addresses are dropped. `chid` is kept only with `ch`, and `choose_id` only with both.
    #[allow(clippy::too_many_arguments)]
    pub fn new_with_choose(
        v4: bool,
        v6: bool,
        ch: bool,
        chid: bool,
        teid: impl Into<Teid>,
        ipv4_address: Option<Ipv4Addr>,
        ipv6_address: Option<Ipv6Addr>,
        choose_id: u8,
    ) -> Self {
        if !ch {
            return Self::new(v4, v6, teid, ipv4_address, ipv6_address, 0);
        }
        let choose_id = if chid { choose_id } else { 0 };
        Fteid { ch, chid, choose_id, ..Self::new(v4, v6, 0, None, None, 0) }
    }

    /// A builder with nothing set.
    pub fn builder() -> FteidBuilder {
        FteidBuilder::new()
    }

    /// A tunnel's end with an IPv4 address.
    pub fn ipv4(teid: impl Into<Teid>, addr: Ipv4Addr) -> Self {
        Self::new(true, false, teid, Some(addr), None, 0)
    }

    /// A tunnel's end with an IPv6 address.
    pub fn ipv6(teid: impl Into<Teid>, addr: Ipv6Addr) -> Self {
        Self::new(false, true, teid, None, Some(addr), 0)
    }

    /// A tunnel's end with both addresses.
    pub fn dual_stack(teid: impl Into<Teid>, ipv4: Ipv4Addr, ipv6: Ipv6Addr) -> Self {
        Self::new(true, true, teid, Some(ipv4), Some(ipv6), 0)
    }

    /// The wish for an IPv4 address. The TEID has no effect, as in the original.
    pub fn choose_ipv4(_teid: impl Into<Teid>) -> Self {
        Self::new_with_choose(true, false, true, false, 0, None, None, 0)
    }

    /// The wish for an IPv6 address. The TEID has no effect, as in the original.
    pub fn choose_ipv6(_teid: impl Into<Teid>) -> Self {
        Self::new_with_choose(false, true, true, false, 0, None, None, 0)
    }

    /// The wish for both addresses. The TEID has no effect, as in the original.
    pub fn choose_dual_stack(_teid: impl Into<Teid>) -> Self {
        Self::new_with_choose(true, true, true, false, 0, None, None, 0)
    }

    fn of_image(image: &Image<71>, _payload: &[u8]) -> Self {
        Fteid {
            v4: image.bit(FLAGS, 0),
            v6: image.bit(FLAGS, 1),
            ch: image.bit(FLAGS, 2),
            chid: image.bit(FLAGS, 3),
            teid: Teid(image.number(TEID) as u32),
            ipv4_address: image.given(0).then(|| image.ipv4(IPV4)),
            ipv6_address: image.given(1).then(|| image.ipv6(IPV6)),
            choose_id: image.0[CHOOSE_ID],
        }
    }

    fn to_image(&self) -> (Image<71>, [u8; 0]) {
        let mut image = Image::new();
        image.set_bits(FLAGS, &[self.v4, self.v6, self.ch, self.chid]);
        image.set_bits(GIVEN, &[self.ipv4_address.is_some(), self.ipv6_address.is_some()]);
        image.set_number(TEID, self.teid.0.into());
        image.0[CHOOSE_ID] = self.choose_id;
        image.set_ipv4(IPV4, self.ipv4_address);
        image.set_ipv6(IPV6, self.ipv6_address);
        (image, [])
    }
}

/// Builds an [`Fteid`]. The last setting stands.
#[derive(Debug, Default)]
pub struct FteidBuilder {
    teid: Option<Teid>,
    ipv4_address: Option<Ipv4Addr>,
    ipv6_address: Option<Ipv6Addr>,
    choose_ipv4: bool,
    choose_ipv6: bool,
    choose_id: Option<u8>,
}

impl FteidBuilder {
    /// A builder with nothing set.
    pub fn new() -> Self {
        Self::default()
    }

    /// Sets the identifier. It is needed unless something is to be chosen; then it has no effect.
    pub fn teid(self, teid: impl Into<Teid>) -> Self {
        FteidBuilder { teid: Some(teid.into()), ..self }
    }

    /// Gives the IPv4 address.
    pub fn ipv4(self, addr: Ipv4Addr) -> Self {
        FteidBuilder { ipv4_address: Some(addr), ..self }
    }

    /// Gives the IPv6 address.
    pub fn ipv6(self, addr: Ipv6Addr) -> Self {
        FteidBuilder { ipv6_address: Some(addr), ..self }
    }

    /// Gives both addresses.
    pub fn dual_stack(self, ipv4: Ipv4Addr, ipv6: Ipv6Addr) -> Self {
        self.ipv4(ipv4).ipv6(ipv6)
    }

    /// Asks for an IPv4 address.
    pub fn choose_ipv4(self) -> Self {
        FteidBuilder { choose_ipv4: true, ..self }
    }

    /// Asks for an IPv6 address.
    pub fn choose_ipv6(self) -> Self {
        FteidBuilder { choose_ipv6: true, ..self }
    }

    /// Asks for both addresses.
    pub fn choose_dual_stack(self) -> Self {
        self.choose_ipv4().choose_ipv6()
    }

    /// Gives the ID of the choice.
    pub fn choose_id(self, id: u8) -> Self {
        FteidBuilder { choose_id: Some(id), ..self }
    }

    /// The F-TEID. With a choice its TEID is 0, and an address of the other family stays in it but isn't written.
    ///
    /// # Errors
    /// Refusal 9 with the first of the rules 1 to 5 that is broken ([`Why::Unbuilt`]).
    pub fn build(self) -> Result<Fteid, Refusal> {
        if let Some(rule) = self.broken_rule() {
            return Err(Refusal { kind: Kind::Fteid, why: Why::Unbuilt { rule } });
        }
        let ch = self.chooses();
        let teid = if ch { None } else { self.teid };
        Ok(Fteid {
            v4: self.choose_ipv4 || self.ipv4_address.is_some(),
            v6: self.choose_ipv6 || self.ipv6_address.is_some(),
            ch,
            chid: self.choose_id.is_some(),
            teid: teid.unwrap_or_default(),
            ipv4_address: self.ipv4_address,
            ipv6_address: self.ipv6_address,
            choose_id: self.choose_id.unwrap_or_default(),
        })
    }

    fn chooses(&self) -> bool {
        self.choose_ipv4 || self.choose_ipv6
    }

    /// The number of the first rule that the settings break.
    fn broken_rule(&self) -> Option<u8> {
        let (ipv4, ipv6) = (self.ipv4_address.is_some(), self.ipv6_address.is_some());
        let chooses = self.chooses();
        let broken = [
            (1, ipv4 && self.choose_ipv4),
            (2, ipv6 && self.choose_ipv6),
            (3, !ipv4 && !ipv6 && !chooses),
            (4, self.choose_id.is_some() && !chooses),
            (5, self.teid.is_none() && !chooses),
        ];
        broken.iter().find(|(_, is_broken)| *is_broken).map(|(rule, _)| *rule)
    }
}
