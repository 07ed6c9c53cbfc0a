//! The measured calls: alike on both sides, and refused only where they have to be.

use super::{both, fail};
use crate::buffers::Buffers;
use crate::workload::{self, Call, Workload};

pub fn check() {
    let all = workload::all();
    for workload in &all {
        let meant = workload.name.starts_with("refusal");
        if is_refused(workload) != meant {
            fail(&workload.name, "refused or accepted against its name");
        }
    }
    eprintln!("{} workloads alike", all.len());
}

fn is_refused(workload: &Workload) -> bool {
    let (name, lists) = (&workload.name, &workload.buffers);
    match &workload.call {
        Call::Command(command, place) => {
            let call = |lists: &mut Buffers, side| lists.lent().command(side, *command, place);
            both(name, lists, call).0.number != 0
        }
        Call::Session(file) => {
            let call = |lists: &mut Buffers, side| lists.lent().session(side, file);
            both(name, lists, call).0.number != 0
        }
        Call::Pool(file) => {
            let call = |lists: &mut Buffers, side| lists.lent().pool(side, file);
            let (length, after) = both(name, lists, call);
            let text = String::from_utf8_lossy(&after.text[..length]);
            text.contains("refused")
        }
    }
}
