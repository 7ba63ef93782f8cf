//! The queue: random pushes, returns, pops, peeks and questions at each capacity, the whole order compared after each.
use crate::chance::Chance;
use crate::mode::{agree, equal, Difference, Histories, Mode, Tally};
use model::Reading;
use plain::Frame;

pub const CAPACITIES: [usize; 8] = [0, 1, 2, 3, 16, 255, 256, 257];

pub struct Queue;

#[derive(Clone, Debug)]
pub struct Setup {
    pub capacity: usize,
    /// Places lent: as many as the capacity, or more, or one fewer.
    places: usize,
}

#[derive(Clone, Debug)]
pub enum Call {
    Push(Frame),
    Return(Frame),
    Peek,
    Pop,
    Reserve(usize),
}

/// Few IDs, so that equals meet: ones that differ only in priority, only in the source, and the limits.
const IDS: [u32; 8] = [0, 5, 0x1061_002A, 0x1061_002B, 0x0061_002A, 0x076B_8289, 0x1C00_0000, 0x1FFF_FFFF];

fn frame(chance: &mut Chance) -> Frame {
    let id = match chance.below(40) {
        0 => chance.of(&[1 << 29, u32::MAX]),
        1..=9 => chance.next() as u32 >> 3,
        _ => chance.of(&IDS),
    };
    let length = match chance.below(30) {
        0 => 65,
        1 => 64,
        2 => 0,
        _ => chance.below(12) as usize,
    };
    Frame::new(chance.next() as u32, id, chance.one_in(2), &chance.bytes(length))
}

fn call(chance: &mut Chance, filling: bool) -> Call {
    match (chance.below(10), filling) {
        (0, _) => Call::Peek,
        (1, _) => Call::Reserve(chance.of(&[0, 1, 2, 16, 17, 255, 256, 257, usize::MAX])),
        (2, _) => Call::Pop,
        (3, _) | (4, true) => Call::Return(frame(chance)),
        (4..=8, true) | (4, false) => Call::Push(frame(chance)),
        (_, true) => Call::Push(frame(chance)),
        (_, false) => Call::Pop,
    }
}

impl Mode for Queue {
    const NAME: &'static str = "queue";
    type Setup = Setup;
    type Call = Call;

    fn histories(seed: u64) -> Histories<Setup, Call> {
        Box::new((0..).map(move |history| {
            let chance = &mut Chance::new(seed, history);
            let capacity = CAPACITIES[history as usize % CAPACITIES.len()];
            let places = if chance.one_in(20) { capacity.saturating_sub(1) } else { capacity + chance.of(&[0, 0, 1, 7]) };
            let count = chance.below(3 * capacity as u32 + 20) + 1;
            let mut filling = true;
            let calls = (0..count).map(|_| {
                filling ^= chance.one_in(capacity as u32 + 3);
                call(chance, filling)
            });
            (Setup { capacity, places }, calls.collect())
        }))
    }

    fn run(setup: &Setup, calls: &[Call], reading: Reading, tally: &mut Tally) -> Result<(), Difference> {
        run(setup, calls, reading, tally)
    }
}

/// All histories of six calls at the small capacities: two IDs pushed and returned, and a pop. Each frame bears the number of its call as its stamp.
pub struct Short;

const CALLS: usize = 6;
const LETTERS: usize = 5;

fn letter(letter: usize, at: usize) -> Call {
    let frame = |id| Frame::new(at as u32, id, false, &[]);
    match letter {
        0 => Call::Push(frame(5)),
        1 => Call::Push(frame(6)),
        2 => Call::Return(frame(5)),
        3 => Call::Return(frame(6)),
        _ => Call::Pop,
    }
}

impl Mode for Short {
    const NAME: &'static str = "queue-short";
    type Setup = Setup;
    type Call = Call;

    fn histories(_: u64) -> Histories<Setup, Call> {
        let of_number = |number: usize| (0..CALLS).map(|at| letter(number / LETTERS.pow(at as u32) % LETTERS, at)).collect();
        let at_capacity = move |capacity| (0..LETTERS.pow(CALLS as u32)).map(move |number| (Setup { capacity, places: capacity }, of_number(number)));
        Box::new((0..=3).flat_map(at_capacity))
    }

    fn run(setup: &Setup, calls: &[Call], reading: Reading, tally: &mut Tally) -> Result<(), Difference> {
        run(setup, calls, reading, tally)
    }
}

fn run(setup: &Setup, calls: &[Call], reading: Reading, tally: &mut Tally) -> Result<(), Difference> {
    let mut sides = match ours::Line::new(setup.capacity, setup.places, 8, (0, 0)) {
        Ok(ours) => Sides::new(setup, ours, reading),
        Err(number) => {
            tally.inputs += 1;
            equal(0, "making", &(number, setup.capacity > 256), &(14, true))?;
            tally.list("a queue of more than 256 frames");
            return Ok(());
        }
    };
    equal(0, "a capacity that is made", &(setup.capacity <= 256), &true)?;
    for (at, call) in calls.iter().enumerate() {
        tally.inputs += 1;
        sides.answer(at, call, tally)?;
        sides.order(at)?;
    }
    Ok(())
}

struct Sides {
    ours: ours::Line,
    model: model::Queue,
    /// None where fewer places are lent than the capacity, which the original cannot express.
    original: Option<Box<dyn original::door::Line>>,
    orders: [Vec<Frame>; 2],
    capacity: usize,
}

impl Sides {
    fn new(setup: &Setup, ours: ours::Line, reading: Reading) -> Self {
        let whole = setup.places >= setup.capacity;
        // With too few places nothing goes in and nothing comes out.
        let model = model::Queue::new(reading, if whole { setup.capacity } else { 0 });
        let original = whole.then(|| original::door::line(setup.capacity));
        Sides { ours, model, original, orders: [Vec::new(), Vec::new()], capacity: setup.capacity }
    }

    fn answer(&mut self, at: usize, call: &Call, tally: &mut Tally) -> Result<(), Difference> {
        let (ours, model, mut original) = (&mut self.ours, &mut self.model, self.original.as_mut());
        if original.is_none() {
            tally.list("fewer places lent than the capacity");
        }
        let placed = |tally: &mut Tally, answer: &Result<(), u8>| {
            tally.see(match answer {
                Ok(()) => "placed",
                Err(3) => "refusal 3",
                Err(1) => "refusal 1",
                Err(_) => "refusal 13",
            })
        };
        match call {
            Call::Push(frame) => {
                let answer = ours.push_frame(frame);
                placed(tally, &answer);
                agree(at, "push", &answer, &model.push_frame(*frame), original.map(|o| o.push_frame(frame)).as_ref())
            }
            Call::Return(frame) => {
                let answer = ours.return_frame(frame);
                placed(tally, &answer);
                agree(at, "return", &answer, &model.return_frame(*frame), original.map(|o| o.return_frame(frame)).as_ref())
            }
            Call::Peek => agree(at, "peek", &ours.peek_frame(), &model.peek_frame(), original.map(|o| o.peek_frame()).as_ref()),
            Call::Pop => {
                let answer = ours.pop_frame();
                tally.see(if answer.is_some() { "popped" } else { "nothing" });
                agree(at, "pop", &answer, &model.pop_frame(), original.map(|o| o.pop_frame()).as_ref())
            }
            Call::Reserve(frames) => {
                let asked = original.as_mut().map(|o| o.try_reserve(*frames));
                agree(at, "reserve", &ours.try_reserve(*frames), &model.try_reserve(*frames), asked.as_ref())
            }
        }
    }

    fn order(&mut self, at: usize) -> Result<(), Difference> {
        let [here, there] = &mut self.orders;
        self.ours.order(here);
        equal(at, "the order here", here, &self.model.frames)?;
        let counts = (self.ours.len(), self.ours.is_empty(), self.ours.capacity());
        equal(at, "length, whether empty, capacity", &counts, &(self.model.frames.len(), self.model.frames.is_empty(), self.capacity))?;
        if let Some(original) = &mut self.original {
            original.order(there);
            equal(at, "the original's order", there, &self.model.frames)?;
            equal(at, "the original's length, whether empty, capacity", &(original.len(), original.is_empty(), original.capacity()), &counts)?;
        }
        Ok(())
    }
}
