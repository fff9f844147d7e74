//! An F-SEID with a spare bit set and two bytes behind it: it reads like the plain one, and is written like it.
use yerondatt::ie::fseid::Fseid;

fn main() -> Result<(), yerondatt::Refusal> {
    let payload = [0x82, 0, 0, 0, 0, 0, 0, 0, 5, 192, 0, 2, 1, 0xAB, 0xCD];
    let (fseid, used) = Fseid::unmarshal_used(&payload)?;
    println!("SEID {}, {:?}, used {used} of {}", fseid.seid, fseid.ipv4_address, payload.len());
    println!("written {:02X?}, strict {}", fseid.marshal(), Fseid::strict(&payload));
    println!("cut: {}", Fseid::unmarshal(&payload[..12]).unwrap_err());
    Ok(())
}
