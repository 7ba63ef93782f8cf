//! The tracker: each destination forty times in turn, then random ones, from fresh rows and from any rows.
use crate::chance::Chance;
use crate::mode::{agree, equal, Difference, Histories, Mode, Tally};
use model::Reading;

pub struct Tracker;

impl Mode for Tracker {
    const NAME: &'static str = "tracker";
    /// The numbers at first.
    type Setup = [u8; 128];
    type Call = u8;

    fn histories(seed: u64) -> Histories<Self::Setup, u8> {
        let in_turn = (0..=255).flat_map(|destination| [destination; 40]).collect();
        let random = (0..).map(move |history| {
            let chance = &mut Chance::new(seed, history);
            let numbers = std::array::from_fn(|_| chance.below(32) as u8);
            let few = chance.of(&[3, 128, 256]);
            let calls = (0..chance.below(200)).map(|_| chance.below(few) as u8).collect();
            (if chance.one_in(3) { [0; 128] } else { numbers }, calls)
        });
        Box::new(std::iter::once(([0; 128], in_turn)).chain(random))
    }

    fn run(numbers: &[u8; 128], calls: &[u8], reading: Reading, tally: &mut Tally) -> Result<(), Difference> {
        let mut model = model::Tracker::new(reading, *numbers);
        let mut ours = if *numbers == [0; 128] { ours::Tracker::fresh() } else { ours::Tracker::with(model.row()) };
        let mut original = original::door::Tracker::new(numbers);
        for (at, destination) in calls.iter().copied().enumerate() {
            tally.inputs += 1;
            let given = ours.next_transfer_id(destination);
            agree(at, "given", &given, &model.next_transfer_id(destination), Some(&original.next_transfer_id(destination)))?;
            tally.see(if given.is_ok() { "numbers" } else { "refusal 12" });
            equal(at, "the row here", &ours.row(), &model.row())?;
            equal(at, "the original's row", &original.probe(), &model.numbers())?;
        }
        Ok(())
    }
}
