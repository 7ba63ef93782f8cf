//! Makings of subscriptions: each field at its limit and one over, each kind, and frames to what was refused.
use crate::chance::Chance;
use crate::mode::{agree, equal, Difference, Histories, Mode, Tally};
use model::{receive, Reading};
use plain::{Answer, Asked, Frame};

pub struct Making;

impl Mode for Making {
    const NAME: &'static str = "making";
    type Setup = ();
    type Call = Asked;

    fn histories(seed: u64) -> Histories<(), Asked> {
        Box::new((0..).map(move |history| {
            let chance = &mut Chance::new(seed, history);
            let any = chance.next() as u16;
            let asked = Asked {
                kind: chance.of(&[0, 0, 1, 2, 3, 255]),
                port: chance.of(&[0, 511, 512, 8191, 8192, u16::MAX, any]),
                node: chance.of(&[0, 126, 127, 128, 254, 255]),
                timeout: chance.of(&[0, 1 << 31, u32::MAX]),
                extent: chance.of(&[0, 1, 1023, 1024, 1025, 65_536, 65_537, 1 << 32, usize::MAX]),
            };
            ((), vec![asked])
        }))
    }

    fn run(_: &(), calls: &[Asked], reading: Reading, tally: &mut Tally) -> Result<(), Difference> {
        for (at, asked) in calls.iter().enumerate() {
            tally.inputs += 1;
            let ours = ours::Receiver::new(asked, Vec::new());
            let answer = ours.as_ref().map(drop).map_err(|(number, _)| *number);
            let model = receive::making(reading, asked);
            // The original takes any extent.
            let original = original::rx_door::Receiver::new(asked).map(drop);
            agree(at, "making", &answer, &model, (model != Err(8)).then_some(&original))?;
            match model {
                Err(8) => tally.list("an extent over 1,024"),
                Err(_) => tally.see("refusal 12"),
                Ok(()) => tally.see("made"),
            }
            if let Err((_, mut unmade)) = ours {
                takes_nothing(at, asked, &mut unmade)?;
            }
        }
        Ok(())
    }
}

/// What was not made takes no frame, also none of the kind and port that were asked for.
fn takes_nothing(at: usize, asked: &Asked, unmade: &mut ours::Receiver) -> Result<(), Difference> {
    let slots = *unmade.words();
    let port = u32::from(asked.port);
    let message = (port & 8191) << 8;
    let service = 1 << 25 | (port & 511) << 14 | u32::from(asked.node & 127) << 7;
    for id in [message, message | 1 << 24, service, service | 1 << 24, 0] {
        let (answer, _) = unmade.accept(&Frame::new(0, id, false, &[0xE0]));
        equal(at, "a frame to what was not made", &answer, &Answer::NotOurs)?;
    }
    equal(at, "slots of what was not made", &unmade.words()[..], &slots[..])
}
