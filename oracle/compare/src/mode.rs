//! What the modes share: histories of calls, what is counted, and the shrinking of a history that differs.
use model::Reading;
use std::collections::BTreeMap;
use std::fmt::Debug;

/// Setups, each with the calls that follow it.
pub type Histories<S, C> = Box<dyn Iterator<Item = (S, Vec<C>)>>;

/// One kind of input. A history is a setup and the calls that follow it, each answered by all three sides.
pub trait Mode {
    const NAME: &'static str;
    type Setup: Clone + Debug;
    type Call: Clone + Debug;

    /// Fixed histories first, then random ones by seed, if the mode has such.
    fn histories(seed: u64) -> Histories<Self::Setup, Self::Call>;

    /// Makes the calls on all sides, and compares after each.
    fn run(setup: &Self::Setup, calls: &[Self::Call], reading: Reading, tally: &mut Tally) -> Result<(), Difference>;
}

/// That the sides differ, and at which call.
#[derive(Debug)]
pub struct Difference {
    pub at: usize,
    pub what: String,
}

/// What was seen in a run.
#[derive(Default)]
pub struct Tally {
    /// Calls made.
    pub inputs: u64,
    pub histories: u64,
    /// Answers by their kind.
    pub seen: BTreeMap<&'static str, u64>,
    /// Differences that docs/DIFFERENCES.md lists, by its words.
    pub listed: BTreeMap<&'static str, u64>,
}

impl Tally {
    pub fn see(&mut self, what: &'static str) {
        *self.seen.entry(what).or_default() += 1;
    }

    pub fn list(&mut self, what: &'static str) {
        *self.listed.entry(what).or_default() += 1;
    }
}

/// The two sides that always answer, and the original where it was asked.
pub fn agree<T: PartialEq + Debug>(at: usize, what: &str, ours: &T, model: &T, original: Option<&T>) -> Result<(), Difference> {
    if ours == model && original.is_none_or(|original| original == ours) {
        return Ok(());
    }
    let original = original.map_or(String::from("not asked"), |original| format!("{original:?}"));
    Err(Difference { at, what: format!("{what}: original {original}; here {ours:?}; model {model:?}") })
}

/// As `agree`, for what only two sides have.
pub fn equal<T: PartialEq + Debug + ?Sized>(at: usize, what: &str, one: &T, other: &T) -> Result<(), Difference> {
    if one == other {
        return Ok(());
    }
    Err(Difference { at, what: format!("{what}: {one:?}; model {other:?}") })
}

/// A history that differs.
pub struct Found<M: Mode> {
    pub setup: M::Setup,
    pub calls: Vec<M::Call>,
    pub history: u64,
}

/// Runs histories until so many calls were made; stops at the first that differs.
pub fn run<M: Mode>(seed: u64, count: u64, reading: Reading, tally: &mut Tally) -> Option<Found<M>> {
    for (setup, calls) in M::histories(seed) {
        if tally.inputs >= count {
            break;
        }
        if let Err(difference) = M::run(&setup, &calls, reading, tally) {
            let calls = calls[..=difference.at.min(calls.len() - 1)].to_vec();
            return Some(Found { setup, calls, history: tally.histories });
        }
        tally.histories += 1;
    }
    None
}

/// Leaves out calls for as long as the sides still differ.
pub fn smallest<M: Mode>(setup: &M::Setup, mut calls: Vec<M::Call>) -> Vec<M::Call> {
    let differs = |calls: &[M::Call]| M::run(setup, calls, Reading::Right, &mut Tally::default()).err();
    let mut size = calls.len();
    while size > 0 {
        let mut at = 0;
        while at < calls.len() {
            let mut fewer = calls.clone();
            fewer.drain(at..(at + size).min(calls.len()));
            match differs(&fewer) {
                Some(difference) if !fewer.is_empty() => {
                    fewer.truncate(difference.at + 1);
                    calls = fewer;
                }
                _ => at += size,
            }
        }
        size /= 2;
    }
    calls
}

/// Runs a mode by document 01's own reading, prints what was seen, and says whether the sides agree.
pub fn report<M: Mode>(seed: u64, count: u64) -> bool {
    let mut tally = Tally::default();
    let found = run::<M>(seed, count, Reading::Right, &mut tally);
    let build = if cfg!(debug_assertions) { "checked" } else { "release" };
    let differ = found.is_some();
    println!(
        "{}, {build}, seed {seed}: {} calls in {} histories, {}",
        M::NAME,
        tally.inputs,
        tally.histories,
        if differ { "DIFFERENT" } else { "none otherwise" }
    );
    let words = |counts: &BTreeMap<&str, u64>| counts.iter().map(|(what, n)| format!("{what} {n}")).collect::<Vec<_>>().join(", ");
    println!("  seen: {}", words(&tally.seen));
    if !tally.listed.is_empty() {
        println!("  listed differences: {}", words(&tally.listed));
    }
    if let Some(found) = found {
        show(found);
    }
    !differ
}

fn show<M: Mode>(found: Found<M>) {
    let calls = smallest::<M>(&found.setup, found.calls);
    println!("  history {}, shrunk; {:?}", found.history, found.setup);
    calls.iter().for_each(|call| println!("    {call:?}"));
    match M::run(&found.setup, &calls, Reading::Right, &mut Tally::default()) {
        Err(difference) => println!("  at the last call, {}", difference.what),
        Ok(()) => println!("  which differs no more when run again"),
    }
}
