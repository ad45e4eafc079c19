//! Times of several sides in one process, which take turns.

use std::time::{Duration, Instant};

/// How long each side is called, in all and before the next one has its turn.
pub const SPAN: Duration = Duration::from_millis(200);
const TURN: Duration = Duration::from_millis(2);

/// Calls of less than this are timed several at a time, so that the clock's own steps do not count.
const GROUP: Duration = Duration::from_micros(20);

/// What is timed.
pub type Timed<'a> = Box<dyn FnMut() + 'a>;

struct Side<'a> {
    call: Timed<'a>,
    /// How many calls are timed at a time.
    group: u32,
    calls: u32,
    spent: Duration,
    /// Seconds.
    best: f64,
}

impl<'a> Side<'a> {
    /// The first call also says how many make a group.
    fn new(call: Timed<'a>) -> Self {
        let mut side =
            Self { call, group: 1, calls: 0, spent: Duration::ZERO, best: f64::INFINITY };
        side.group();
        let often = GROUP.as_secs_f64() / side.best.max(1e-9);
        side.group = (often as u32).clamp(1, 2_000);
        side
    }

    fn group(&mut self) {
        let begun = Instant::now();
        for _ in 0..self.group {
            (self.call)();
        }
        let took = begun.elapsed();
        self.calls += self.group;
        self.spent += took;
        self.best = self.best.min(took.as_secs_f64() / f64::from(self.group));
    }

    fn turn(&mut self) {
        let end = self.spent + TURN;
        while self.spent < end {
            self.group();
        }
    }
}

/// The best time of each side that there is, in microseconds: of calls over `SPAN` and of at least so many. The sides take turns of `TURN`, so that
/// what else the machine does meets them alike.
pub fn best<const N: usize>(sides: [Option<Timed>; N], least: u32) -> [Option<f64>; N] {
    let mut sides = sides.map(|call| call.map(Side::new));
    let short = |side: &Side| side.spent < SPAN || side.calls < least;
    while sides.iter().flatten().any(short) {
        sides.iter_mut().flatten().filter(|side| short(side)).for_each(Side::turn);
    }
    sides.map(|side| side.map(|side| side.best * 1e6))
}
