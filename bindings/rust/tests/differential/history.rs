//! One history: the same calls given to the library and to the model, all answers and buffers compared after each.

use hekthumar::sys::ReadAnswer;

use crate::calls::{self, Weights};
use crate::coverage::Coverage;
use crate::damage;
use crate::depths::Dropped;
use crate::discriminants;
use crate::editions;
use crate::interface::{Answer, Call, World};
use crate::library;
use crate::model::{self, Bug, Planted};
use crate::random::Random;
use crate::record_calls;
use crate::replay::{Replay, Slip};
use crate::returns;
use crate::takings;
use crate::world::{self, Size};

/// Which history, and which planted mistake.
#[derive(Clone, Copy)]
pub struct Plan {
    pub seed: u64,
    pub number: u64,
    pub size: Size,
    /// Buffers are damaged between calls. Then the premises of the replay do not hold, and only the model is compared.
    pub damaged: bool,
    pub bug: Option<Bug>,
    pub slip: Option<Slip>,
}

impl Plan {
    /// History `number` of a seed: every second one is damaged, every fourth is nested, and few go deep or start from a wide world or one
    /// with many frames.
    pub fn new(seed: u64, number: u64) -> Plan {
        let size = match number % 64 {
            14 | 15 => Size::SomeFrames,
            30 | 31 => Size::Wide,
            46 | 47 => Size::Deep,
            63 => Size::TooWide,
            number if number % 8 / 2 == 2 => Size::Nested,
            _ => Size::Small,
        };
        Plan { seed, number, size, damaged: number % 2 == 1, bug: None, slip: None }
    }
}

struct Run<'a> {
    plan: Plan,
    random: Random,
    library: World,
    model: World,
    planted: Planted,
    replay: Option<Replay>,
    dropped: Dropped,
    coverage: &'a mut Coverage,
    calls: u64,
}

/// Runs a history; the error says all about the first difference.
pub fn run(plan: Plan, coverage: &mut Coverage) -> Result<(), String> {
    let random = Random::of_history(plan.seed, plan.number);
    let world = world::generate(&random, plan.size);
    let replay = (!plan.damaged).then(|| Replay::new(&world.snapshot, plan.slip));
    coverage.histories += 1;
    let planted = Planted::new(plan.bug);
    let dropped = Dropped::default();
    let mut run = Run { plan, random, library: world.clone(), model: world, planted, replay, dropped, coverage, calls: 0 };
    run.whole()
}

impl Run<'_> {
    fn whole(&mut self) -> Result<(), String> {
        let weights = Weights::new(&self.random, self.plan.size);
        // Before the first begin the control block holds anything.
        for _ in 0..self.random.choose(&[0, 0, 1, 6]) {
            let call = calls::generate(&self.random, &self.library, &weights);
            self.step(call)?;
        }
        self.step(calls::good_begin(&self.random, &self.library))?;
        // It takes many calls until pages of several depths lie in the heap in an unusual order, or until the deepest program runs.
        let fewest = if matches!(self.plan.size, Size::Nested | Size::Deep) { 140 } else { 40 };
        for _ in 0..fewest + self.random.below(60) {
            if self.plan.damaged && self.random.chance(35) {
                self.damaged_step(&weights)?;
                continue;
            }
            if self.random.chance(4) {
                let calls = record_calls::left_by_program(&self.random, &self.library, &weights.stores);
                calls.into_iter().try_for_each(|call| self.step(call))?;
            }
            let call = calls::generate(&self.random, &self.library, &weights);
            self.step(call)?;
        }
        let end = self.replay.as_ref().map_or(Ok(()), |replay| replay.check_end(&self.library));
        end.map_err(|text| self.place(&text))
    }

    fn damaged_step(&mut self, weights: &Weights) -> Result<(), String> {
        let passing = self.random.chance(50);
        let before = passing.then(|| self.library.clone());
        // The call is chosen by what the buffers said before passing damage, so that it would have got far without it.
        let early = passing.then(|| calls::generate(&self.random, &self.library, weights));
        let damage = if passing { damage::passing } else { damage::lasting };
        damage(&self.random, &mut self.library);
        self.model.clone_from(&self.library);
        let call = early.unwrap_or_else(|| calls::generate(&self.random, &self.library, weights));
        self.step(call)?;
        if let Some(before) = before {
            self.model.clone_from(&before);
            self.library = before;
        }
        Ok(())
    }

    fn step(&mut self, call: Call) -> Result<(), String> {
        let (mut by_library, mut by_model) = (call.clone(), call.clone());
        let due = model::begin_refusals(&mut self.model, &call);
        let case = returns::case(&call, &self.library, !self.is_replayed());
        let met = editions::met(&call, &self.library);
        let discriminant = discriminants::met(&call, &mut self.library);
        let uses = self.library.uses();
        let depths = self.dropped.met(&call, &self.library, self.is_replayed());
        let given = library::run(&mut self.library, &mut by_library);
        let (expected, why) = model::run(&mut self.model, &mut by_model, &mut self.planted);
        let difference = buffers(&self.library, &by_library).first_difference(buffers(&self.model, &by_model));
        if given != expected || difference.is_some() {
            let bytes = difference.unwrap_or("no byte of a buffer differs".into());
            let answers = format!("library: {given:?}\nmodel:   {expected:?} ({why:?})");
            return Err(self.place(&format!("{}\n{answers}\n{bytes}", call.describe())));
        }
        self.coverage.record(&call, &given, why);
        self.coverage.begins.record(&call, &self.library, &due);
        self.coverage.returns.record(case, &given, why);
        self.coverage.editions.record(met, why);
        self.coverage.discriminants.record(discriminant, why);
        self.coverage.takings.record(takings::case(&call, &given, &uses, &self.library));
        self.coverage.depths.record(&depths, why);
        self.dropped.take_in(depths, why);
        let right = self.replayed(&by_library, &given).and_then(|()| self.reads_back(&call, &given));
        self.calls += 1;
        right.map_err(|text| self.place(&format!("{}\n{text}", call.describe())))
    }

    /// "An accepted write, then at once a read at the same address, gives the record back."
    fn reads_back(&mut self, call: &Call, answer: &Answer) -> Result<(), String> {
        let (Call::WriteRecord { address, record }, 0) = (call, answer.number()) else { return Ok(()) };
        let read = library::run(&mut self.library, &mut Call::ReadRecord { shape: record.shape(), address: *address });
        if read != Answer::Read(ReadAnswer { record: *record, distance: 0, number: 0 }) {
            return Err(format!("read at once, the record is another: {read:?}"));
        }
        Ok(())
    }

    fn replayed(&mut self, call: &Call, answer: &Answer) -> Result<(), String> {
        let Some(replay) = &mut self.replay else { return Ok(()) };
        replay.observe(call, answer)?;
        replay.check_frames(&self.library)
    }

    /// No byte was written but by calls from an accepted begin on.
    fn is_replayed(&self) -> bool {
        self.replay.as_ref().is_some_and(Replay::has_begun)
    }

    fn place(&self, text: &str) -> String {
        let Plan { seed, number, size, .. } = self.plan;
        format!("seed {seed:#x}, history {number} ({size:?}), call {}:\n{text}", self.calls)
    }
}

/// Named buffers after a call.
struct Buffers<'a>(Vec<(&'static str, &'a [u8])>);

fn buffers<'a>(world: &'a World, call: &'a Call) -> Buffers<'a> {
    let mut buffers: Vec<(&'static str, &[u8])> = vec![("snapshot", &world.snapshot), ("control", &world.control), ("pool", &world.pool)];
    buffers.extend(call.lent());
    Buffers(buffers)
}

impl Buffers<'_> {
    fn first_difference(&self, other: Buffers) -> Option<String> {
        let (name, ours, theirs) =
            self.0.iter().zip(&other.0).find(|(ours, theirs)| ours.1 != theirs.1).map(|(ours, theirs)| (ours.0, ours.1, theirs.1))?;
        let at = ours.iter().zip(theirs).position(|(a, b)| a != b).unwrap_or(ours.len().min(theirs.len()));
        Some(format!("first difference in {name} at byte {at:#x}: library {:02x?}, model {:02x?}", ours.get(at), theirs.get(at)))
    }
}
