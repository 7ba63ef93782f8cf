//! The frame plan: every length from 0 to two over the limit at both MTUs, and MTUs that are refused.
use crate::mode::{agree, Difference, Histories, Mode, Tally};
use model::{wire, Reading};
use std::iter;

pub struct Plans;

impl Mode for Plans {
    const NAME: &'static str = "plans";
    type Setup = ();
    /// Payload length and MTU.
    type Call = (usize, usize);

    fn histories(_: u64) -> Histories<(), (usize, usize)> {
        let lengths = [8, 64].into_iter().flat_map(|mtu| (0..=1026).map(move |length| (length, mtu)));
        let far = [8, 64].into_iter().flat_map(|mtu| [4096, 1 << 32, usize::MAX].map(|length| (length, mtu)));
        let mtus = (0..=70).chain([256, 264, 1 << 32, (1 << 32) + 8, usize::MAX]).flat_map(|mtu| [0, 7, 1025].map(|length| (length, mtu)));
        Box::new(iter::once(((), lengths.chain(far).chain(mtus).collect())))
    }

    fn run(_: &(), calls: &[(usize, usize)], reading: Reading, tally: &mut Tally) -> Result<(), Difference> {
        for (at, (length, mtu)) in calls.iter().copied().enumerate() {
            tally.inputs += 1;
            let (ours, model) = (ours::plan(length, mtu), wire::plan(reading, length, mtu));
            let listed = match model {
                Err(9) => Some("an MTU that is neither 8 nor 64"),
                Err(10) => Some("a payload over the limit"),
                _ => None,
            };
            // The original plans any length at any MTU from 2 to 64, and stops at others.
            let original = listed.is_none().then(|| Ok(original::door::plan(length, mtu)));
            agree(at, "plan", &ours, &model, original.as_ref())?;
            match listed {
                Some(what) => tally.list(what),
                None => tally.see("plans"),
            }
        }
        Ok(())
    }
}
