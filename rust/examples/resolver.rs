//! A program as a user of rs-pfcp writes it, but for its `use` lines. `rust/test` turns these back, compiles it against
//! the published Rust, and compares what the two print.

use std::collections::HashMap;
use std::error::Error;
use std::net::{Ipv4Addr, Ipv6Addr};
use yerondatt::error::Refusal as PfcpError;
use yerondatt::ie::f_teid::{Fteid, FteidBuilder};
use yerondatt::ie::fseid::Fseid;
use yerondatt::ie::node_id::NodeId;
use yerondatt::ie::outer_header_creation::{OuterHeaderCreation, OuterHeaderCreationFlags};
use yerondatt::ie::pfd_contents::{PfdContents, PfdContentsBuilder};
use yerondatt::ie::ue_ip_address::UeIpAddress;
use yerondatt::types::{Seid, Teid};

/// What is known of a session.
#[derive(Debug, Clone, Default, PartialEq)]
struct Session {
    tunnels: Vec<Fteid>,
    addresses: Vec<UeIpAddress>,
    headers: Vec<OuterHeaderCreation>,
}

/// Sessions by their identifier.
#[derive(Default)]
struct Resolver {
    sessions: HashMap<Seid, Session>,
}

impl Resolver {
    fn session(&mut self, fseid: &[u8]) -> Result<&mut Session, PfcpError> {
        let Fseid { seid, .. } = Fseid::unmarshal(fseid)?;
        Ok(self.sessions.entry(seid).or_default())
    }

    fn tunnel(&mut self, fseid: &[u8], payload: &[u8]) -> Result<Teid, PfcpError> {
        let fteid = Fteid::unmarshal(payload)?;
        let teid = fteid.teid;
        self.session(fseid)?.tunnels.push(fteid);
        Ok(teid)
    }

    fn address(&mut self, fseid: &[u8], payload: &[u8]) -> Result<(), Box<dyn Error + Send + Sync>> {
        let address = UeIpAddress::unmarshal(payload)?;
        self.session(fseid)?.addresses.push(address);
        Ok(())
    }
}

fn node_name(node: &NodeId) -> String {
    match node {
        NodeId::IPv4(address) => address.to_string(),
        NodeId::IPv6(address) => address.to_string(),
        NodeId::FQDN(name) => name.clone(),
    }
}

/// A constructor of F-TEID or of another type that takes any number for the identifier.
fn tunnels(address: Ipv4Addr, address6: Ipv6Addr) -> Result<Vec<Fteid>, PfcpError> {
    let given = FteidBuilder::new().teid(0x1234_5678).ipv4(address).ipv6(address6).build()?;
    let chosen = Fteid::builder().choose_ipv4().choose_id(42).build()?;
    assert!(FteidBuilder::default().ipv4(address).build().is_err());
    assert!(Fteid::builder().teid(Teid::new(1)).build().is_err());
    assert!(Fteid::builder().choose_dual_stack().dual_stack(address, address6).build().is_err());
    Ok(vec![
        given,
        chosen,
        Fteid::ipv4(7u32, address),
        Fteid::ipv6(Teid(8), address6),
        Fteid::dual_stack(9u32, address, address6),
        Fteid::choose_ipv4(0u32),
        Fteid::choose_ipv6(0u32),
        Fteid::choose_dual_stack(Teid::default()),
        Fteid::new(true, false, 10u32, Some(address), None, 5),
        Fteid::new_with_choose(true, true, true, true, 11u32, Some(address), None, 5),
        Fteid { v4: false, ipv4_address: None, ..Fteid::ipv4(12u32, address) },
    ])
}

fn headers(address: Ipv4Addr, address6: Ipv6Addr) -> Vec<OuterHeaderCreation> {
    let mut flags = OuterHeaderCreationFlags::gtpu_ipv4();
    flags.stag = true;
    assert_ne!(flags, OuterHeaderCreationFlags::default());
    assert_eq!(OuterHeaderCreationFlags::new(), OuterHeaderCreationFlags::default());
    vec![
        OuterHeaderCreation::gtpu_ipv4(0x100u32, address).with_ctag(0x0112_3456).with_stag(2),
        OuterHeaderCreation::gtpu_ipv6(Teid(0x200), address6),
        OuterHeaderCreation::udp_ipv4(address, 2152),
        OuterHeaderCreation::new(OuterHeaderCreationFlags::udp_ipv6()),
        OuterHeaderCreation { stag: Some(0xFFFF_FFFF), ..OuterHeaderCreation::new(flags) },
    ]
}

fn filters() -> Result<Vec<PfdContents>, PfcpError> {
    let built = PfdContents::builder()
        .flow_description("permit out ip from any to assigned")
        .url(String::from("http://example.org/"))
        .domain_name("example.org")
        .custom_pfd_content("mine")
        .domain_name_protocol("https")
        .add_additional_flow_description("permit in ip from any to any")
        .additional_urls(["a", "b"])
        .add_additional_url("c")
        .additional_domain_names_and_protocols(vec![String::from("d")])
        .add_additional_domain_name_and_protocol("e")
        .build()?;
    assert!(PfdContentsBuilder::new().build().is_err());
    Ok(vec![
        built,
        PfdContents::flow_description("a")?,
        PfdContents::url("b")?,
        PfdContents::domain_name("c")?,
        PfdContents::flow_and_url("d", String::from("e"))?,
        PfdContents::domain_and_protocol("f", "g")?,
        PfdContentsBuilder::new().additional_flow_descriptions(["h", "i"]).build()?,
    ])
}

fn show<T: std::fmt::Debug>(name: &str, record: &T, written: &[u8]) {
    println!("{name}: {record:?}\n  {written:02x?}");
}

fn main() -> Result<(), Box<dyn Error>> {
    let address = Ipv4Addr::new(192, 0, 2, 1);
    let address6: Ipv6Addr = "2001:db8::1".parse()?;

    let seid = Seid::new(5);
    let fseid = Fseid::new(seid, Some(address), Some(address6));
    let copied = fseid;
    show("F-SEID", &copied, &fseid.marshal());
    println!("{seid} {seid:x} {seid:#X} {} {}", u64::from(seid), *seid + seid.value());
    let teid: Teid = 0xABCDu32.into();
    println!("{teid} {teid:x} {teid:#X} {} {}", u32::from(teid), *teid + teid.value());
    println!("{teid:?} {seid:?}");

    for node in [NodeId::new_ipv4(address), NodeId::new_ipv6(address6), NodeId::new_fqdn("upf.example.org")] {
        let read = NodeId::unmarshal(&node.marshal())?;
        assert_eq!(read, node);
        show(&node_name(&node), &node, &node.marshal());
    }
    for fteid in tunnels(address, address6)? {
        show("F-TEID", &fteid, &fteid.marshal());
        println!("  {:?}", Fteid::unmarshal(&fteid.marshal()).ok());
    }
    for header in headers(address, address6) {
        show("Outer Header Creation", &header.clone(), &header.marshal());
        println!("  {:?}", OuterHeaderCreation::unmarshal(&header.marshal()).ok());
    }
    for filter in filters()? {
        show("PFD Contents", &filter, &filter.marshal());
        println!("  {:?}", PfdContents::unmarshal(&filter.marshal()).ok());
    }
    let ue = [
        UeIpAddress::new(Some(address), None),
        UeIpAddress::choose(true, true),
        UeIpAddress { source_destination: true, ..UeIpAddress::new(None, Some(address6)) },
    ];
    for address in &ue {
        show("UE IP Address", address, &address.marshal());
        assert_eq!(UeIpAddress::unmarshal(&address.marshal()).as_ref(), Ok(address));
    }

    let mut resolver = Resolver::default();
    let spare_bits = [&[0xFE], &fseid.marshal()[1..13], &[1, 2, 3]].concat();
    println!("{}", resolver.tunnel(&spare_bits, &Fteid::ipv4(99u32, address).marshal())?);
    for payload in [&ue[0].marshal()[..], &[0x12], &[0x02, 192, 0, 2], &[]] {
        println!("{payload:?} {}", resolver.address(&spare_bits, payload).is_ok());
    }
    println!("{}", resolver.tunnel(&[2], &[4]).is_err());
    println!("{:?}", resolver.sessions[&seid]);
    Ok(())
}
