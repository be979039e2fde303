//! A long random run of one effect: several units, each ours beside the Rust's, call after call.

use crate::ages::Compared;
use crate::counts;
use crate::random::{Random, COMMON_RATES};
use crate::table::{CONTROL, CURVE, NUMBERS};

/// One unit of an effect on both sides, in lockstep.
pub trait Pair: Sized {
    const NAME: &'static str;

    /// The table's numbers that this effect's calls can give.
    const REFUSALS: &'static [u32];

    /// What its ticks are called where they are counted.
    const TICKS: &'static str = "ticks";

    /// Whether its ticks answer ages.
    const AGED: bool = false;

    /// Whether its states keep a count of the places in use that are neither +0 nor −0.
    const COUNTED: bool = false;

    /// Whether a tick is two calls, of which the first answers the age: the second counts as the tick.
    const HALVED: bool = false;

    /// A call with its arguments, the state handed to it among them.
    type Call;

    /// An accepted start at this rate; what else it takes is drawn.
    fn start(sample_rate: f64, random: &mut Random) -> Result<Self, String>;

    /// A call for this unit: mostly ticks, now and then one that must be refused.
    fn draw(&self, random: &mut Random) -> Self::Call;

    /// Make the call on both sides and compare what it returns and leaves; a message where they differ.
    fn call(&mut self, call: &Self::Call) -> Result<Made, String>;

    /// The call with its arguments, in hex.
    fn shown(call: &Self::Call) -> String;

    /// The end of the run: compare what `call` compares only now and then.
    fn finish(&self) -> Result<(), String> {
        Ok(())
    }

    /// The ages that were compared so far; none of an effect that answers none.
    fn ages(&self) -> Compared {
        Compared::default()
    }

    /// The counts that were compared so far; none of an effect that keeps none.
    fn counts(&self) -> counts::Compared {
        counts::Compared::default()
    }
}

/// What a call that went as it should was.
pub enum Made {
    Tick,
    /// The first call of a tick that is two.
    Half,
    Other,
    Refused(u32),
}

impl Made {
    /// By the call's number in the table.
    pub fn of(number: u32, tick: bool) -> Self {
        match (number, tick) {
            (0, true) => Made::Tick,
            (0, false) => Made::Other,
            _ => Made::Refused(number),
        }
    }

    /// The call's number in the table, which a directed case knows.
    pub fn expected(self, number: u32) -> Result<(), String> {
        let made = match self {
            Made::Refused(number) => number,
            _ => 0,
        };
        if made == number {
            return Ok(());
        }
        Err(format!(
            "directed: a call came to number {made}, where it should to {number}"
        ))
    }
}

#[derive(Default)]
struct Tally {
    ticks: u64,
    halves: u64,
    others: u64,
    refused: [u64; NUMBERS],
}

impl Tally {
    fn count(&mut self, made: Made) {
        match made {
            Made::Tick => self.ticks += 1,
            Made::Half => self.halves += 1,
            Made::Other => self.others += 1,
            Made::Refused(number) => self.refused[number as usize] += 1,
        }
    }

    /// Whether every age was compared: of each accepted tick, or of each first half, and of at least so many refused ones, since no
    /// other call gives the numbers 5 and 6, and no first half 6.
    fn covered<P: Pair>(&self, ages: Compared) -> bool {
        let control = self.refused[CONTROL as usize];
        if P::HALVED {
            return ages.covers(self.halves, control);
        }
        ages.covers(self.ticks, control + self.refused[CURVE as usize])
    }

    /// What a run shows nothing of, if anything.
    fn missing<P: Pair>(&self, ages: Compared, counts: counts::Compared) -> Option<String> {
        let mut numbers = P::REFUSALS.iter();
        let unmet = numbers.find(|number| self.refused[**number as usize] == 0);
        if let Some(number) = unmet.filter(|_| self.ticks >= LONG) {
            return Some(format!("no call was refused by number {number}"));
        }
        if P::AGED && !self.covered::<P>(ages) {
            return Some("the age of some tick was not compared".into());
        }
        let missing = counts.missing(self.ticks + self.halves, self.ticks >= LONGER);
        missing.filter(|_| P::COUNTED).map(String::from)
    }

    fn shown<P: Pair>(&self, ages: Compared, counts: counts::Compared) -> String {
        let each = |number: &u32| format!("{} by number {number}", self.refused[*number as usize]);
        let refused = P::REFUSALS.iter().map(each).collect::<Vec<_>>().join(", ");
        format!(
            "{}: {} {} compared{}{}, {} other calls, refused: {refused}",
            P::NAME,
            self.ticks,
            P::TICKS,
            ages.shown(),
            counts.shown(),
            self.others
        )
    }
}

/// From this many ticks on, a run must have met every refusal, or it shows nothing of the missing one.
const LONG: u64 = 10_000;

/// From this many on it must have met every kind of count: no place of a reverb is lost before the predelay has gone round.
const LONGER: u64 = 100_000;

pub fn run<P: Pair>(ticks: u64, seed: u64) -> Result<String, String> {
    let mut random = Random::new(seed);
    let mut rates = COMMON_RATES.to_vec();
    rates.push(random.sample_rate());
    let mut units = rates
        .into_iter()
        .map(|rate| P::start(rate, &mut random))
        .collect::<Result<Vec<_>, _>>()?;
    let mut tally = Tally::default();
    while tally.ticks < ticks {
        let at = random.below(units.len() as u64) as usize;
        let call = units[at].draw(&mut random);
        match units[at].call(&call) {
            Ok(made) => tally.count(made),
            Err(message) => {
                let call = P::shown(&call);
                return Err(format!(
                    "after {} {}, {call}\n{message}",
                    tally.ticks,
                    P::TICKS
                ));
            }
        }
    }
    units.iter().try_for_each(P::finish)?;
    let ages = units.iter().map(P::ages);
    let ages = ages.fold(Compared::default(), Compared::and);
    let counts = units.iter().map(P::counts);
    let counts = counts.fold(counts::Compared::default(), counts::Compared::and);
    match tally.missing::<P>(ages, counts) {
        Some(missing) => Err(missing),
        None => Ok(tally.shown::<P>(ages, counts)),
    }
}

/// The number that a call returned must be the table's.
pub fn number_agrees(ours: u32, table: u32) -> Result<(), String> {
    if ours == table {
        return Ok(());
    }
    Err(format!(
        "number {ours} was returned, by the table it is {table}"
    ))
}

/// What silent wrote: 1 for yes, else 0.
pub fn silent_agrees(wrote: u32, yes: bool) -> Result<(), String> {
    if wrote == u32::from(yes) {
        return Ok(());
    }
    Err(format!("silent answers {wrote}"))
}
