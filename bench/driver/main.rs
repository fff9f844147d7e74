//! bench: one program with both sides, the published Rust as the crate `pfcp` and our archive. Its arguments: passes.rs, `command`.

// std's start-up reads the memory map of the process, which some emulators don't survive
#![no_main]

mod check;
mod images;
mod passes;
mod payloads;
mod sides;

use images::Record;
use passes::{add, kept, Call, Check, Run};
use payloads::Class;
use sides::Kind;
use std::ptr::null;

struct Bench {
    check: Option<Check>,
    runs: Vec<Run>,
}

impl Bench {
    /// Reads the payloads of a class with both sides, for the check and for the records that are to be written.
    fn class<R: Record>(&mut self, kind: &Kind, class: Class) {
        let (mut reads, mut ours, mut rust) = (Vec::new(), Vec::new(), Vec::new());
        for payload in class.payloads {
            let payload: &'static [u8] = Vec::leak(payload);
            let mut image = vec![0xA5; kind.size];
            let number = (kind.read)(payload, &mut image);
            let record = R::read(payload).ok();
            if let Some(check) = &mut self.check {
                check.accepted(kind, payload, record.is_some(), class.accepted);
                check.read::<R>(kind, payload, number, &image);
                record.as_ref().map(|record| check.write(kind, payload, &image, record));
            }
            reads.push(Call(payload.as_ptr(), payload.len(), null(), 0));
            ours.push(Call(Vec::leak(image).as_ptr(), kind.size, payload.as_ptr(), payload.len()));
            rust.extend(record.map(|record| Call(kept(record), 0, null(), 0)));
        }
        let what = if class.accepted { "read" } else { "refused" };
        let read = [("ours", kind.ours_read, &reads), ("rust", kind.rust_read, &reads)];
        add(&mut self.runs, kind.name, &class.name, what, read);
        if class.accepted {
            let write = [("ours", kind.ours_write, &ours), ("rust", kind.rust_write, &rust)];
            add(&mut self.runs, kind.name, &class.name, "write", write);
        }
    }

    fn kind<R: Record>(&mut self, kind: Kind) {
        for class in payloads::of_kind(kind.name) {
            self.class::<R>(&kind, class);
        }
    }

    /// The UTF-8 check: ours inside the read of a Node ID, which is charged whole, std's alone.
    fn utf8(&mut self) {
        for class in payloads::of_kind("utf8") {
            let payloads = class.payloads.into_iter().map(|p| Vec::leak(p) as &[u8]);
            let calls: Vec<Call> = payloads.map(|p| Call(p.as_ptr(), p.len(), null(), 0)).collect();
            let ours = sides::node_id::kind().ours_read;
            add(&mut self.runs, "utf8", &class.name, "utf8", [("ours", ours, &calls), ("rust", sides::rust_utf8, &calls)]);
        }
    }
}

fn bench(check: Option<Check>) -> Bench {
    let mut b = Bench { check, runs: Vec::new() };
    b.kind::<pfcp::ie::ue_ip_address::UeIpAddress>(sides::ue_ip_address::kind());
    b.kind::<pfcp::ie::f_teid::Fteid>(sides::f_teid::kind());
    b.kind::<pfcp::ie::fseid::Fseid>(sides::fseid::kind());
    b.kind::<pfcp::ie::node_id::NodeId>(sides::node_id::kind());
    b.kind::<pfcp::ie::outer_header_creation::OuterHeaderCreation>(sides::outer_header_creation::kind());
    b.kind::<pfcp::ie::pfd_contents::PfdContents>(sides::pfd_contents::kind());
    b.utf8();
    b
}

fn agree() -> bool {
    bench(Some(Check::default())).check.unwrap_or_default().agree()
}

#[no_mangle]
pub extern "C" fn main(argc: i32, argv: *const *const std::ffi::c_char) -> i32 {
    passes::command(argc, argv, agree, || bench(None).runs)
}
