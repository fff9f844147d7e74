//! The published Rust's side of the tables in docs/FROM-RS-PFCP.md. `rust/test` compiles it against the published Rust; this
//! crate's side is in `tests/samples.rs` and `tests/refusals.rs`.

use rs_pfcp::error::PfcpError;
use rs_pfcp::ie::f_teid::Fteid;
use rs_pfcp::ie::fseid::Fseid;
use rs_pfcp::ie::node_id::NodeId;
use rs_pfcp::ie::pfd_contents::PfdContents;
use rs_pfcp::ie::ue_ip_address::UeIpAddress;

fn letters(count: usize) -> String {
    "a".repeat(count)
}

fn main() {
    no_limits();
    lengths_are_cut();
    errors();
    broken_texts();
    println!("the published Rust is as docs/FROM-RS-PFCP.md says");
}

fn no_limits() {
    assert!(Fseid::unmarshal(&[0; 65_536]).is_ok());
    assert_eq!(NodeId::FQDN(letters(70_000)).marshal().len(), 70_001);
    assert!(PfdContents::url(letters(65_536)).is_ok());
}

fn lengths_are_cut() {
    let written = PfdContents::url(letters(65_536)).unwrap().marshal();
    assert_eq!((written.len(), &written[..4]), (65_540, &[0x02, 0, 0, 0][..]));
    assert_eq!(PfdContents::unmarshal(&written).unwrap().url, Some(String::new()));
    let entry = PfdContents::builder().add_additional_url(letters(65_537)).build().unwrap();
    assert_eq!(entry.marshal()[..4], [0x40, 0, 0, 1]);
}

/// Each error, and the cause that it is turned into.
fn errors() {
    let short = Fseid::unmarshal(&[2]).unwrap_err();
    assert!(matches!(&short, PfcpError::InvalidLength { expected: 9, actual: 1, .. }));
    let values = [
        UeIpAddress::unmarshal(&[0x12]).unwrap_err(),
        Fteid::unmarshal(&[0x08]).unwrap_err(),
        NodeId::unmarshal(&[3]).unwrap_err(),
        NodeId::unmarshal(&[2, 0xFF]).unwrap_err(),
        PfdContents::unmarshal(&[1, 0, 0, 1, 0xFF]).unwrap_err(),
    ];
    assert!(values.iter().all(|error| matches!(error, PfcpError::InvalidValue { .. })));
    let unbuilt = [Fteid::builder().build().unwrap_err(), PfdContents::builder().build().unwrap_err()];
    assert!(unbuilt.iter().all(|error| matches!(error, PfcpError::ValidationError { .. })));
    let cause = |error: &PfcpError| error.to_cause_code() as u8;
    assert_eq!(cause(&short), 68);
    assert!(values.iter().all(|error| cause(error) == 69));
    assert!(unbuilt.iter().all(|error| cause(error) == 73));
}

/// Whether a text was cut is said of PFD Contents alone, in words.
fn broken_texts() {
    let reason = |error: PfcpError| match error {
        PfcpError::InvalidValue { reason, .. } => reason,
        other => panic!("a text is refused otherwise: {other:?}"),
    };
    let name = |byte: u8| reason(NodeId::unmarshal(&[2, byte]).unwrap_err());
    assert_eq!(name(0xC3), name(0xFF));
    let text = |byte: u8| reason(PfdContents::unmarshal(&[1, 0, 0, 1, byte]).unwrap_err());
    assert_ne!(text(0xC3), text(0xFF));
}
