//! The measuring of one row.

use crate::ours::Both;
use std::hint::black_box;
use std::time::{Duration, Instant};

/// The time of one contestant in one round, about; it goes through all cases at least once.
const ROUND: Duration = Duration::from_millis(14);

/// The time of one group of cases, about, if it is not a single case.
const GROUP: Duration = Duration::from_micros(300);

const ROUNDS: usize = 9;

/// What a call is given.
pub trait Given {
    /// The bytes of all arguments; a name has two.
    fn length(&self) -> usize;
}

/// What the Rust answers from the bytes.
pub trait Answer {
    /// Whether the call answers the same, as far as its number says.
    fn is(&self, number: u64) -> bool;
}

/// Yes or no.
impl Answer for bool {
    fn is(&self, number: u64) -> bool {
        number == u64::from(*self)
    }
}

/// The number itself.
impl Answer for u64 {
    fn is(&self, number: u64) -> bool {
        number == *self
    }
}

/// A level or a count.
impl Answer for usize {
    fn is(&self, number: u64) -> bool {
        number == *self as u64
    }
}

/// Bytes, of which the call gives the length.
impl Answer for Vec<u8> {
    fn is(&self, number: u64) -> bool {
        self.len().is(number)
    }
}

/// An answer that is not refused.
impl<A: Answer> Answer for Result<A, u8> {
    fn is(&self, number: u64) -> bool {
        self.as_ref().is_ok_and(|answer| answer.is(number))
    }
}

/// The refusal of a record that is to be refused.
pub struct Refusal(Option<u8>);

impl Refusal {
    pub fn of<T>(answer: Result<T, u8>) -> Refusal {
        Refusal(answer.err())
    }
}

impl Answer for Refusal {
    fn is(&self, number: u64) -> bool {
        self.0
            .is_some_and(|refusal| number == 1 << 32 | u64::from(refusal))
    }
}

/// The command of a type.
impl Answer for Option<u8> {
    fn is(&self, number: u64) -> bool {
        number == self.map_or(2 << 32, u64::from)
    }
}

/// Whether there is a part of the bytes.
pub struct Found(pub bool);

impl Answer for Found {
    fn is(&self, number: u64) -> bool {
        number >> 32 == if self.0 { 0 } else { 2 }
    }
}

/// The mean length of the arguments of one call, and the times of one call in nanoseconds.
pub struct Measured {
    pub bytes: f64,
    pub ours: f64,
    pub rust: f64,
    pub ready: Option<f64>,
    pub lean: Option<f64>,
    pub before: Option<f64>,
}

/// For calls with nothing to do on a tree, and those without a lean Rust.
pub fn nothing<C>() -> Option<fn(&C) -> u64> {
    None
}

/// A call on all cases, in turn: by `ours` with the function of the library and with that of the
/// earlier one, by `rust` over the bytes, by `lean` over the bytes and by `ready` over the trees.
/// Before that, the answers are compared.
pub fn contest<C: Given, F: Copy, A: Answer, L: Answer, T>(
    cases: &[C],
    function: Both<F>,
    mut ours: impl FnMut(F, &C) -> u64,
    mut rust: impl FnMut(&C) -> A,
    mut lean: Option<impl FnMut(&C) -> L>,
    mut ready: Option<impl FnMut(&C) -> T>,
) -> Measured {
    // The functions are hidden, so that those of both libraries are called in the same way.
    let Both { now, before } = black_box(function);
    for case in cases {
        let number = ours(now, case);
        assert!(rust(case).is(number), "another answer: {number:X}");
        if let Some(lean) = &mut lean {
            assert!(lean(case).is(number), "lean, another answer: {number:X}");
        }
        if let Some(before) = before {
            assert_eq!(ours(before, case), number, "before, another answer");
        }
    }
    let mut of_ours = Best::<NOW>::new(cases, &mut calling(now, &mut ours));
    let mut of_before =
        before.map(|before| Best::<BEFORE>::new(cases, &mut calling(before, &mut ours)));
    let mut of_rust = Best::<RUST>::new(cases, &mut rust);
    let mut of_lean = lean.as_mut().map(|work| Best::<LEAN>::new(cases, work));
    let mut of_ready = ready.as_mut().map(|work| Best::<READY>::new(cases, work));
    for _ in 0..ROUNDS {
        of_ours.round(cases, &mut calling(now, &mut ours));
        if let (Some(best), Some(before)) = (&mut of_before, before) {
            best.round(cases, &mut calling(before, &mut ours));
        }
        of_rust.round(cases, &mut rust);
        if let (Some(best), Some(work)) = (&mut of_lean, &mut lean) {
            best.round(cases, work);
        }
        if let (Some(best), Some(work)) = (&mut of_ready, &mut ready) {
            best.round(cases, work);
        }
    }
    let bytes: usize = cases.iter().map(Given::length).sum();
    let count = cases.len();
    Measured {
        bytes: bytes as f64 / count as f64,
        ours: of_ours.a_call(count),
        rust: of_rust.a_call(count),
        ready: of_ready.map(|best| best.a_call(count)),
        lean: of_lean.map(|best| best.a_call(count)),
        before: of_before.map(|best| best.a_call(count)),
    }
}

/// The call by this function.
fn calling<C, F: Copy>(f: F, ours: &mut impl FnMut(F, &C) -> u64) -> impl FnMut(&C) -> u64 {
    move |case| ours(f, case)
}

/// The contestants.
const NOW: u8 = 0;
const BEFORE: u8 = 1;
const RUST: u8 = 2;
const LEAN: u8 = 3;
const READY: u8 = 4;

/// The best times of the contestant `WHO`. The cases are timed in groups and the best time of each
/// group counts, so that what else the machine does in between is left out.
struct Best<const WHO: u8> {
    /// How often it goes through all groups in one round.
    passes: u128,
    /// How often it goes through a group at once.
    repeats: u32,
    /// The cases in a group.
    size: usize,
    /// The best time of each group.
    times: Vec<Duration>,
}

impl<const WHO: u8> Best<WHO> {
    fn new<C, T>(cases: &[C], work: &mut impl FnMut(&C) -> T) -> Self {
        // A few times through, since the first may be slow.
        let once = (0..3).map(|_| timed::<WHO, _, _>(1, cases, work)).min();
        let once = once.unwrap_or_default().as_nanos().max(20);
        let group = GROUP.as_nanos();
        let groups = once.div_ceil(group).min(cases.len() as u128);
        let size = cases.len().div_ceil(groups as usize);
        Self {
            passes: ROUND.as_nanos().div_ceil(once.max(group)),
            repeats: group.div_ceil(once) as u32,
            size,
            times: vec![Duration::MAX; cases.len().div_ceil(size)],
        }
    }

    fn round<C, T>(&mut self, cases: &[C], work: &mut impl FnMut(&C) -> T) {
        for _ in 0..self.passes {
            for (best, group) in self.times.iter_mut().zip(cases.chunks(self.size)) {
                *best = timed::<WHO, _, _>(self.repeats, group, work).min(*best);
            }
        }
    }

    /// Nanoseconds of one call.
    fn a_call(&self, cases: usize) -> f64 {
        let all: Duration = self.times.iter().sum();
        all.as_nanos() as f64 / (f64::from(self.repeats) * cases as f64)
    }
}

/// The time of all cases, so many times over. Each contestant has its own copy of this code: where two
/// share one branch to their functions, the processor expects that of the first.
#[inline(never)]
fn timed<const WHO: u8, C, T>(
    repeats: u32,
    cases: &[C],
    work: &mut impl FnMut(&C) -> T,
) -> Duration {
    black_box(WHO);
    let start = Instant::now();
    for _ in 0..repeats {
        for case in cases {
            black_box(work(black_box(case)));
        }
    }
    start.elapsed()
}
