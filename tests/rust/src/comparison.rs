//! The reference and an engine side by side: after each call both answers and every byte of both
//! buffers must be the same.

use crate::calls::{Calls, Reference};
use crate::generate::stores::Edits;
use crate::generate::{episode, Answer, Call, Step};
use crate::reached::Reached;
use crate::reference::layout::{field_at, stations_for};

/// What a run showed.
#[derive(Default)]
pub struct Outcome {
    pub passed: u64,
    pub failed: u64,
    pub reached: Reached,
}

impl Outcome {
    /// Makes a step on the pair and counts it: the number that its call gave, or the difference.
    pub fn step(&mut self, pair: &mut Pair, step: &Step) -> Result<Option<u32>, String> {
        let answer = pair.step(step).inspect_err(|_| self.failed += 1)?;
        if let Some(answer) = &answer {
            self.passed += 1;
            self.reached.note(step, &pair.before, &pair.ours, answer);
        }
        pair.mend();
        Ok(answer.map(|answer| answer.number))
    }

    /// Makes steps from an empty buffer up to the first difference, which is given with the step's place.
    pub fn steps(&mut self, engine: &dyn Calls, steps: &[Step], hear: Hear) -> Result<(), String> {
        let mut pair = Pair::new(engine);
        for (i, step) in steps.iter().enumerate() {
            hear(Heard::Step(step));
            let answer =
                self.step(&mut pair, step).map_err(|difference| format!("step {i}\n{difference}"))?;
            answer.into_iter().for_each(|number| hear(Heard::Number(number)));
        }
        Ok(())
    }
}

/// What is told of a run: each step before it is made, then the number that its call gave.
pub enum Heard<'a> {
    Step(&'a Step),
    Number(u32),
}

pub type Hear<'a> = &'a mut dyn FnMut(Heard);

/// At least so many calls, episode by episode; the first has the seed, each later one the next.
/// A difference is told to `say` and ends its episode.
pub fn compare(
    engine: &dyn Calls,
    calls: u64,
    seed: u64,
    hear: &mut dyn FnMut(u64, Heard),
    say: &mut dyn FnMut(String),
) -> Outcome {
    let mut outcome = Outcome::default();
    let mut seed = seed;
    while outcome.passed + outcome.failed < calls {
        if let Err(difference) = outcome.steps(engine, &episode(seed), &mut |heard| hear(seed, heard)) {
            say(format!("DIFFERENCE in seed {seed}, {difference}\n  again: compare 1 {seed}"));
        }
        seed = seed.wrapping_add(1);
    }
    outcome
}

/// The two buffers.
pub struct Pair<'a> {
    engine: &'a dyn Calls,
    ours: Vec<u8>,
    theirs: Vec<u8>,
    /// What to put back before the next step.
    kept: Edits,
    /// What both held when the last call was made.
    before: Vec<u8>,
}

impl<'a> Pair<'a> {
    pub fn new(engine: &'a dyn Calls) -> Pair<'a> {
        Pair { engine, ours: Vec::new(), theirs: Vec::new(), kept: Edits::new(), before: Vec::new() }
    }

    /// Makes a step on both: the answer, if it has a call, or the difference.
    pub fn step(&mut self, step: &Step) -> Result<Option<Answer>, String> {
        let (damage, call): (&[(usize, u8)], &Call) = match step {
            Step::Lend(buffer) => {
                self.ours.clone_from(buffer);
                self.theirs.clone_from(buffer);
                return Ok(None);
            }
            Step::Call(call) => (&[], call),
            Step::Damaged { edits, call } => (edits, call),
        };
        let kept: Edits = damage.iter().map(|&(at, _)| (at, self.ours[at])).rev().collect();
        self.edit(damage);
        self.before.clone_from(&self.ours);
        let ours = call.make(&Reference, &mut self.ours);
        let theirs = call.make(self.engine, &mut self.theirs);
        if ours != theirs || self.ours != self.theirs {
            return Err(self.difference(call, damage, &ours, &theirs));
        }
        if ours.number == 9 {
            self.kept = kept;
        }
        Ok(Some(ours))
    }

    /// Puts back the bytes that a damaged step changed, where its call was refused 9.
    pub fn mend(&mut self) {
        let kept = std::mem::take(&mut self.kept);
        self.edit(&kept);
    }

    fn edit(&mut self, edits: &[(usize, u8)]) {
        for &(at, byte) in edits {
            self.ours[at] = byte;
            self.theirs[at] = byte;
        }
    }

    fn difference(&self, call: &Call, damage: &[(usize, u8)], ours: &Answer, theirs: &Answer) -> String {
        let mut text = format!("  call: {call}\n  store: {} bytes, set first: {damage:?}\n", self.ours.len());
        text += &format!("  reference: {}\n  engine:    {}\n", ours.shown(call), theirs.shown(call));
        let pairs = ours.entries.iter().zip(&theirs.entries).enumerate();
        for (at, (our, their)) in pairs.filter(|(_, (our, their))| our != their).take(8) {
            text += &format!("  entry {at}: reference {our}, engine {their}\n");
        }
        let places: Vec<usize> = (0..self.ours.len()).filter(|&i| self.ours[i] != self.theirs[i]).collect();
        for &at in places.iter().take(8) {
            let field = stations_for(self.ours.len()).and_then(|n| field_at(n, at));
            let named = field.map_or(String::new(), |(record, field)| {
                format!(" ({} of {record:?})", record.fields()[field].name)
            });
            text += &format!("  byte {at}{named}: reference {}, engine {}\n", self.ours[at], self.theirs[at]);
        }
        text + &format!("  {} bytes of the store differ", places.len())
    }
}
