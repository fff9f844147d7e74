//! What the check compares of a kind.

use crate::images::{head, Record, HEAD};
use crate::passes::Check;
use crate::sides::{output, Kind, OUTPUT_LEN, REPORT};
use pfcp::error::PfcpError;

impl Check {
    /// Number and image of a read against the Rust's record or error. Of a refusal the number, the lengths and the empty record are
    /// compared; the other values aren't in the Rust's error, and oracle/compare looks at them.
    pub fn read<R: Record>(&mut self, kind: &Kind, payload: &[u8], number: u64, image: &[u8]) {
        let value = |at: usize| u64::from_le_bytes(image[at..at + 8].try_into().unwrap());
        let (answer, values, used) = match R::read(payload) {
            Ok(record) => (0, [0; 3], record.written().len()),
            Err(PfcpError::InvalidLength { expected, actual, .. }) => (1, [value(8), expected as u64, actual as u64], 0),
            Err(_) => (R::bad_value(payload), [value(8), value(16), value(24)], 0),
        };
        let mut expected = head(answer, values, used as u64);
        expected.extend(R::read(payload).map_or(R::refused(), |record| record.laid()));
        self.same(kind.name, payload, number, answer);
        self.same(kind.name, payload, &image[..HEAD], &expected[..HEAD]);
        self.same(kind.name, payload, &image[HEAD..], &expected[HEAD..]);
    }

    /// The record of an image, written again, against what the Rust writes; the output behind that stays as it was.
    pub fn write<R: Record>(&mut self, kind: &Kind, payload: &[u8], image: &[u8], record: &R) {
        let form = record.written();
        let mut report = [0; REPORT];
        let out = unsafe { std::slice::from_raw_parts_mut(output(), OUTPUT_LEN) };
        out.fill(0xA5);
        let number = (kind.write)(image, payload, out, &mut report);
        let untouched = out[form.len()..].iter().all(|b| *b == 0xA5);
        self.same(kind.name, payload, (number, untouched), (0, true));
        self.same(kind.name, payload, &report[..], &head(0, [0; 3], form.len() as u64)[..]);
        self.same(kind.name, payload, &out[..form.len()], &form[..]);
    }

    pub fn accepted(&mut self, kind: &Kind, payload: &[u8], accepted: bool, expected: bool) {
        self.same(kind.name, payload, accepted, expected);
    }
}
