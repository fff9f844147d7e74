//! The six payloads, a module each.

/// What all six kinds have: reading, the used count, the strict verdict, and writing into an output that is lent.
/// A kind adds `of_image`, and `to_image` with the texts that the image speaks of.
macro_rules! kind {
    ($record:ty, $kind:expr) => {
        impl $record {
            /// Reads a payload. Bytes behind the last field, and spare bits, don't count; but of a Node ID the whole
            /// first byte is the type.
            ///
            /// # Errors
            /// The refusals 1 to 5, as [`Why`](crate::error::Why) tells them.
            pub fn unmarshal(payload: &[u8]) -> Result<Self, Refusal> {
                Self::unmarshal_used(payload).map(|(record, _)| record)
            }

            /// Reads a payload, and says how many of its bytes were used: up to the end of the last field read.
            ///
            /// # Errors
            /// As [`unmarshal`](Self::unmarshal).
            pub fn unmarshal_used(payload: &[u8]) -> Result<(Self, usize), Refusal> {
                let (image, used) = crate::image::read($kind, payload)?;
                Ok((Self::of_image(&image, payload), used))
            }

            /// The strict verdict on a payload: it is read, and has what TS 29.244 asks for beyond that. A Node ID is
            /// judged with the high four bits of its first byte cleared, since they are spare.
            pub fn strict(payload: &[u8]) -> bool {
                crate::boundary::strict($kind, payload)
            }

            /// Writes the record into the first bytes of an output, and gives their number. The bytes behind stay as
            /// they were; where the write is refused, all of them do.
            ///
            /// # Errors
            /// Refusal 8 with the needed length where the output is too short. Where a record has texts, also 5 and 7:
            /// its texts, or the written form, have more than 65,535 bytes.
            pub fn marshal_to(&self, out: &mut [u8]) -> Result<usize, Refusal> {
                let (image, texts) = self.to_image();
                crate::image::write($kind, &image.0, &texts, out)
            }
        }
    };
}

/// `marshal` of a kind without texts: nothing but room can be missing, and there is room for the longest form.
macro_rules! marshal_short {
    ($record:ty, $longest:expr) => {
        impl $record {
            /// Writes the record into a new vector.
            pub fn marshal(&self) -> Vec<u8> {
                let mut out = [0; $longest];
                let written = self.marshal_to(&mut out).expect("the longest form has room");
                out[..written].to_vec()
            }
        }
    };
}

/// `marshal` of a kind with texts, which may be too long. A kind adds `room`.
macro_rules! marshal_texts {
    ($record:ty) => {
        impl $record {
            /// Writes the record into a new vector.
            ///
            /// # Panics
            /// Where [`try_marshal`](Self::try_marshal) refuses: an information element has no room for such a record.
            pub fn marshal(&self) -> Vec<u8> {
                self.try_marshal().unwrap_or_else(|refusal| panic!("{refusal}"))
            }

            /// Writes the record into a new vector.
            ///
            /// # Errors
            /// Refusal 5 where its texts, 7 where its written form has more than 65,535 bytes.
            pub fn try_marshal(&self) -> Result<Vec<u8>, Refusal> {
                let mut out = vec![0; self.room()];
                let written = self.marshal_to(&mut out)?;
                out.truncate(written);
                Ok(out)
            }
        }
    };
}

pub mod f_teid;
pub mod fseid;
pub mod node_id;
pub mod outer_header_creation;
pub mod pfd_contents;
pub mod ue_ip_address;

use alloc::string::String;

pub use node_id::NodeId;

/// The most bytes of a written form.
const LIMIT: usize = 65_535;

/// The text at a place of a payload. The archive has checked it; it is checked again here, since the only way around
/// that is `unsafe`.
fn text(payload: &[u8], place: usize, len: usize) -> String {
    String::from_utf8(payload[place..place + len].to_vec()).expect("an accepted text is UTF-8")
}
