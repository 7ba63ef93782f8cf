//! All histories of two frames, and then of three, over a small alphabet of tails, bytes, stamps and flags. The sources know nothing of each other, so 128
//! histories go to one subscription, each from a source of its own.
use crate::mode::{Difference, Histories, Mode, Tally};
use crate::receive::{self, Setup};
use model::Reading;
use plain::{Asked, Frame};

pub struct Exhaustive;

/// What one frame of a history may be; the stamp counts from the first frame's.
#[derive(Clone)]
struct Letter {
    tail: u8,
    bytes: &'static [u8],
    after: u32,
    loopback: bool,
    anonymous: bool,
}

/// Marks and IDs: the expected one, the next, and the last.
fn tails(ids: &[u8]) -> Vec<u8> {
    (0..8).flat_map(|marks| ids.iter().map(move |id| marks << 5 | id)).collect()
}

/// Every letter of these tails, bytes, times and flags (loopback, anonymous).
fn alphabet(tails: &[u8], bytes: &[&'static [u8]], times: &[u32], flags: &[(bool, bool)]) -> Vec<Letter> {
    let mut all = Vec::new();
    for tail in tails {
        for bytes in bytes {
            for after in times {
                all.extend(flags.iter().map(|(loopback, anonymous)| Letter { tail: *tail, bytes, after: *after, loopback: *loopback, anonymous: *anonymous }));
            }
        }
    }
    all
}

const FLAGS: [(bool, bool); 3] = [(false, false), (true, false), (false, true)];

/// Of two bytes `FF` the CRC is 0, so two frames can make an empty payload, in three ways.
fn two(timeout: u32) -> Vec<Vec<Letter>> {
    let bytes: [&[u8]; 4] = [&[], &[0xFF], &[0xFF, 0xFF], &[0]];
    let far = 1 << 31;
    let times = [0, timeout, timeout.wrapping_add(1), far - 1, far, far + 1, !0];
    vec![alphabet(&tails(&[0, 1, 31]), &bytes, &[0], &FLAGS), alphabet(&tails(&[0, 1, 31]), &bytes, &times, &FLAGS)]
}

fn three(timeout: u32) -> Vec<Vec<Letter>> {
    let bytes: [&[u8]; 2] = [&[0xFF], &[0xFF, 0xFF]];
    let times = [0, timeout.wrapping_add(1)];
    let later = alphabet(&tails(&[0, 1]), &bytes, &times, &FLAGS[..2]);
    vec![alphabet(&tails(&[0, 1]), &bytes, &[0], &FLAGS[..1]), later.clone(), later]
}

/// The history of this number, its letters as the digits.
fn letters(places: &[Vec<Letter>], mut number: usize) -> Vec<&Letter> {
    places.iter().map(|place| (&place[number % place.len()], number /= place.len()).0).collect()
}

/// The first frame's stamp: a clock that wraps soon.
const BEGUN: u32 = 0xFFFF_FFF0;
const SUBJECT: u16 = 256;

fn frame(source: usize, letter: &Letter) -> Frame {
    let id = 4 << 26 | 3 << 21 | u32::from(letter.anonymous) << 24 | u32::from(SUBJECT) << 8 | source as u32;
    Frame::new(BEGUN.wrapping_add(letter.after), id, letter.loopback, &[letter.bytes, &[letter.tail]].concat())
}

/// 128 histories at a time.
fn packed(timeout: u32, extent: usize, places: Vec<Vec<Letter>>) -> impl Iterator<Item = (Setup, Vec<Frame>)> {
    let setup = Setup { asked: Asked { kind: plain::MESSAGE, port: SUBJECT, node: 0, timeout, extent }, lacking: 0 };
    let count: usize = places.iter().map(Vec::len).product();
    (0..count).step_by(128).map(move |first| {
        let here = first..count.min(first + 128);
        let histories: Vec<_> = here.map(|number| letters(&places, number)).collect();
        let turn = |turn: usize| histories.iter().enumerate().map(move |(source, letters)| frame(source, letters[turn])).collect::<Vec<_>>();
        (setup.clone(), (0..places.len()).flat_map(turn).collect())
    })
}

const SETTINGS: [(u32, usize); 4] = [(32, 1), (0, 0), ((1 << 31) - 1, 8), (!0, 64)];

impl Mode for Exhaustive {
    const NAME: &'static str = "exhaustive";
    type Setup = Setup;
    type Call = Frame;

    fn histories(_: u64) -> Histories<Setup, Frame> {
        let of_two = SETTINGS.into_iter().flat_map(|(timeout, extent)| packed(timeout, extent, two(timeout)));
        let of_three = SETTINGS[..2].iter().flat_map(|(timeout, extent)| packed(*timeout, *extent, three(*timeout)));
        Box::new(of_two.chain(of_three))
    }

    fn run(setup: &Setup, frames: &[Frame], reading: Reading, tally: &mut Tally) -> Result<(), Difference> {
        receive::run(setup, frames, reading, tally)
    }
}
