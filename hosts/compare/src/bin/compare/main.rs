//! Drives the product and the Rust program through random calls and compares what each answers, writes and leaves.
mod faults;
mod generate;
mod grade_faults;
mod group_faults;
mod intake_faults;
mod lent;
mod migration_faults;
mod robust;
mod sent;
mod side;
mod stores;
mod texts;

use lent::Lent;
use reference::STORE;
use reference::partition::{PARTITION, SLOTS};
use reference::random::Random;
use side::{Answer, Call, Name, Side};
use std::process::ExitCode;

/// How many calls of each name were answered with each number.
type Tally = [[u64; 15]; 8];

/// The numbers that each call can answer, in the order of `Name`.
const NUMBERS: [(Name, &[usize]); 8] = [
    (Name::View, &[0, 1, 2, 3, 4, 7, 10]),
    (Name::Insert, &[0, 1, 2, 3, 4, 5, 6, 7, 8, 9]),
    (Name::Update, &[0, 1, 2, 3, 4, 5, 6, 7]),
    (Name::Delete, &[0, 1, 2, 3, 4, 6, 7]),
    (Name::ViewXml, &[0, 1, 2, 3, 4, 7, 10]),
    (Name::Grade, &[0, 1, 2, 3, 4, 7, 11, 12]),
    (Name::InsertXml, &[0, 1, 2, 3, 4, 7, 8, 9, 13, 14]),
    (Name::Migrate, &[0, 1]),
];

/// The most groups that an insert can make.
const GROUPS_MAX: usize = 5;

/// How many bytes of a text are printed at most.
const SHOWN: usize = 4000;

/// What the command line asks for.
struct Plan {
    seed: u64,
    calls: u64,
    sweeps: u64,
    episode: Option<u64>,
    robust: bool,
    faults: bool,
}

/// A difference between the two.
struct Difference {
    again: String,
    call: Box<Call>,
    what: String,
}

/// What was compared so far.
#[derive(Default)]
struct Course {
    calls: u64,
    episodes: u64,
    corruptions: u64,
    texts: u64,
    tally: Tally,
    /// How many inserts made no group, one, and so on.
    made: [u64; GROUPS_MAX + 1],
    migrated: Migrated,
}

/// How many partitions were migrated, how many had their bit set, and how many were neither.
#[derive(Clone, Copy, Default)]
struct Migrated {
    moved: u64,
    left: u64,
    same: u64,
}

/// The two stores of an episode.
struct Stores {
    product: Lent,
    reference: Vec<u8>,
}

fn main() -> ExitCode {
    let Some(plan) = read_arguments() else {
        eprintln!("compare [--seed N] [--calls N] [--sweeps N] [--episode N] [--robust] [--faults]");
        return ExitCode::from(2);
    };
    println!("seed {}", plan.seed);
    let found = if plan.faults { find_faults(&plan) } else { compare(&plan) };
    if found { ExitCode::SUCCESS } else { ExitCode::FAILURE }
}

/// Reads the command line. Without a seed the clock gives one.
fn read_arguments() -> Option<Plan> {
    let clock = std::time::UNIX_EPOCH.elapsed().map_or(1, |since| since.as_nanos() as u64);
    let mut plan = Plan { seed: clock, calls: 1_200_000, sweeps: 3, episode: None, robust: false, faults: false };
    let mut arguments = std::env::args().skip(1);
    while let Some(argument) = arguments.next() {
        let mut number = || arguments.next()?.parse().ok();
        match argument.as_str() {
            "--seed" => plan.seed = number()?,
            "--calls" => plan.calls = number()?,
            "--sweeps" => plan.sweeps = number()?,
            "--episode" => plan.episode = Some(number()?),
            "--robust" => plan.robust = true,
            "--faults" => plan.faults = true,
            _ => return None,
        }
    }
    Some(plan)
}

/// Compares the product with the Rust program: whether they agree and every answer was met.
fn compare(plan: &Plan) -> bool {
    let mut course = Course::default();
    let result = match plan.episode {
        Some(episode) => course.episode(plan.seed, episode, side::product),
        None if plan.robust => robust::run(&mut course, plan.seed, side::product),
        None => course.sweep_and_run(plan),
    };
    if let Err(difference) = result {
        print_difference(plan.seed, &difference);
        return false;
    }
    let Course { calls, episodes, corruptions, texts, tally, made, migrated } = &course;
    let Migrated { moved, left, same } = migrated;
    println!("{calls} calls in {episodes} episodes, {corruptions} corruptions, {texts} texts tried, no difference");
    print_tally(tally);
    println!("inserts that made 0 to {GROUPS_MAX} groups: {made:?}");
    println!(
        "partitions in migrations: {moved} brought into the new order, {left} with their bit set, {same} the same in both"
    );
    let is_partial = plan.episode.is_some() || plan.robust || plan.calls == 0;
    is_partial || is_complete(&course.tally) && !made.contains(&0) && ![moved, left, same].contains(&&0)
}

/// Compares the product with each fault: whether every fault is found.
fn find_faults(plan: &Plan) -> bool {
    let mut all = true;
    let faults = faults::FAULTS.into_iter().chain(group_faults::FAULTS).chain(intake_faults::FAULTS);
    let faults = faults.chain(migration_faults::FAULTS);
    for (name, side) in faults {
        all &= is_found(name, |course| course.run(plan.seed, plan.calls, side));
    }
    for (name, side) in intake_faults::LONG_FAULTS {
        all &= is_found(name, |course| robust::run_large(course, plan.seed, side));
    }
    all
}

/// Whether a comparison finds this fault.
fn is_found(name: &str, compare: impl FnOnce(&mut Course) -> Result<(), Difference>) -> bool {
    let mut course = Course::default();
    let found = compare(&mut course).is_err();
    println!("{}: {name} ({} calls)", if found { "found" } else { "NOT FOUND" }, course.calls);
    found
}

/// Prints a difference and how to see it again.
fn print_difference(seed: u64, difference: &Difference) {
    let Difference { call, what, .. } = difference;
    println!("DIFFERENCE: {what}");
    println!("{:?}", Call { text: Vec::new(), ..(**call).clone() });
    if call.name == Name::InsertXml {
        let shown = call.text.len().min(SHOWN);
        println!("with this text of {} bytes: {}", call.text.len(), call.text[..shown].escape_ascii());
    }
    println!("again: compare --seed {seed} {}", difference.again);
}

/// Prints how often each number was answered.
fn print_tally(tally: &Tally) {
    for ((name, _), row) in NUMBERS.iter().zip(tally) {
        let counts = (0..).zip(row).map(|(number, count): (u32, _)| format!("{number}: {count}"));
        println!("{name:?}  {}", counts.collect::<Vec<_>>().join("  "));
    }
}

/// Whether each number that a call can answer was met, and no other.
fn is_complete(tally: &Tally) -> bool {
    let mut complete = true;
    for ((name, numbers), row) in NUMBERS.iter().zip(tally) {
        for (number, count) in row.iter().enumerate() {
            if (*count > 0) != numbers.contains(&number) {
                println!("{name:?} answered {number} {count} times");
                complete = false;
            }
        }
    }
    complete
}

impl Course {
    /// The sweeps, the first one with migrations too, then the episodes and the texts that are tried for robustness.
    fn sweep_and_run(&mut self, plan: &Plan) -> Result<(), Difference> {
        for sweep in 0..plan.sweeps {
            let start = stores::filled(&mut Random::part(!plan.seed, sweep), SLOTS + 1);
            self.sweep(plan.seed, sweep, &start, generate::idle_delete)?;
        }
        if plan.sweeps > 0 {
            let start = stores::filled_before(&mut Random::part(!plan.seed, u64::MAX), SLOTS + 1);
            self.sweep(plan.seed, plan.sweeps - 1, &start, |_, _| generate::migration())?;
        }
        self.run(plan.seed, plan.calls, side::product)?;
        if plan.calls == 0 { Ok(()) } else { robust::run(self, plan.seed, side::product) }
    }

    /// Corrupts each byte of a store alone and makes a call: a delete of what is not there, which is refused, or the migration.
    fn sweep(
        &mut self,
        seed: u64,
        sweep: u64,
        start: &[u8],
        call: impl Fn(&mut Random, u8) -> Call,
    ) -> Result<(), Difference> {
        let mut random = Random::part(!seed, u64::MAX / 2 - sweep);
        let mut stores = Stores { product: Lent::new(start, random.below(16)), reference: start.to_vec() };
        for (at, old) in start.iter().enumerate() {
            stores.set_byte(at, stores::other_byte(&mut random, *old));
            self.corruptions += 1;
            let call = call(&mut random, (at / PARTITION) as u8);
            let again = format!("--calls 0 --sweeps {}", sweep + 1);
            self.make(&mut random, &mut stores, &call, side::product, again)?;
            stores.set(start);
        }
        Ok(())
    }

    /// Makes one call on both sides and counts it.
    fn make(
        &mut self,
        random: &mut Random,
        stores: &mut Stores,
        call: &Call,
        side: Side,
        again: String,
    ) -> Result<(), Difference> {
        let before = if call.name == Name::Migrate { stores.reference.clone() } else { Vec::new() };
        let answer = stores.both(random, call, side);
        let answer = answer.map_err(|what| Difference { again, call: Box::new(call.clone()), what })?;
        self.count(call, answer);
        if (call.name, answer.number) == (Name::Migrate, 0) {
            self.migrated.count(&before, &stores.reference, answer.mask);
        }
        Ok(())
    }

    /// Runs episodes until there were this many calls.
    fn run(&mut self, seed: u64, calls: u64, side: Side) -> Result<(), Difference> {
        while self.calls < calls {
            self.episode(seed, self.episodes, side)?;
        }
        Ok(())
    }

    /// Runs one episode: a store to begin with, then calls with corruption between them. A store written before is migrated
    /// after some calls, or at once.
    fn episode(&mut self, seed: u64, episode: u64, side: Side) -> Result<(), Difference> {
        let mut random = Random::part(seed, episode);
        let is_old = random.percent(30);
        let start = if is_old { stores::written_before(&mut random) } else { stores::begin(&mut random) };
        let mut stores = Stores { product: Lent::new(&start, random.below(16)), reference: start };
        let preferred = random.percent(50).then(|| random.below(32) as u8);
        let migrated_at = is_old.then(|| random.pick(&[0, 0, 0, 5, 20]));
        for turn in 0..50 + random.below(350) {
            if migrated_at == Some(turn) {
                self.make(&mut random, &mut stores, &generate::migration(), side, format!("--episode {episode}"))?;
            }
            let saved = self.corrupt(&mut random, &mut stores);
            let turns = if saved.is_some() { 1 + random.below(6) } else { 1 };
            for _ in 0..turns {
                let call = self.next_call(&mut random, &stores, preferred);
                self.make(&mut random, &mut stores, &call, side, format!("--episode {episode}"))?;
            }
            if let (Some(saved), true) = (saved, random.percent(96)) {
                stores.set(&saved);
            }
        }
        self.episodes += 1;
        Ok(())
    }

    /// Corrupts both stores now and then: what they were before.
    fn corrupt(&mut self, random: &mut Random, stores: &mut Stores) -> Option<Vec<u8>> {
        if stores.reference.len() != STORE || !random.percent(8) {
            return None;
        }
        let saved = stores.reference.clone();
        let mut corrupted = saved.clone();
        for _ in 0..random.pick(&[1, 1, 1, 1, 2, 3]) {
            stores::corrupt(random, &mut corrupted);
            self.corruptions += 1;
        }
        stores.set(&corrupted);
        Some(saved)
    }

    /// A random call; the output of a view is often about as long as its listing or its XML.
    fn next_call(&self, random: &mut Random, stores: &Stores, preferred: Option<u8>) -> Call {
        let mut call = generate::call(random, &stores.reference, preferred);
        if has_output(call.name) && random.percent(30) {
            let mut space = vec![0; generate::XML_ROOMY];
            let needed = side::reference(&call, &mut stores.reference.clone(), &mut space).count as usize;
            call.output = random.pick(&[needed, needed.saturating_sub(1), needed + 1, needed / 2]);
        }
        call
    }

    /// Counts a call and its answer.
    fn count(&mut self, call: &Call, answer: Answer) {
        self.calls += 1;
        self.tally[call.name as usize][answer.number as usize] += 1;
        if (call.name, answer.number) == (Name::Insert, 0) {
            self.made[answer.count as usize] += 1;
        }
    }
}

impl Migrated {
    /// Counts the partitions of a migration by the store before it and after it and by its mask.
    fn count(&mut self, before: &[u8], after: &[u8], mask: u32) {
        let parts = before.as_chunks::<PARTITION>().0.iter().zip(after.as_chunks::<PARTITION>().0);
        for (label, (one, two)) in parts.enumerate() {
            self.moved += u64::from(one != two);
            self.left += u64::from(mask >> label & 1);
            self.same += u64::from(one == two && mask >> label & 1 == 0);
        }
    }
}

impl Stores {
    /// Lays these bytes into both stores.
    fn set(&mut self, bytes: &[u8]) {
        self.product.bytes_mut().copy_from_slice(bytes);
        self.reference.copy_from_slice(bytes);
    }

    /// Sets one byte of both stores.
    fn set_byte(&mut self, at: usize, byte: u8) {
        self.product.bytes_mut()[at] = byte;
        self.reference[at] = byte;
    }

    /// Makes the call on both sides: the answer, or what is different.
    fn both(&mut self, random: &mut Random, call: &Call, side: Side) -> Result<Answer, String> {
        let before = if call.name == Name::Migrate { self.product.bytes().to_vec() } else { Vec::new() };
        let fill = vec![random.byte(); if has_output(call.name) { call.output } else { 0 }];
        let mut lent = Lent::new(&fill, random.below(16));
        let mut output = fill;
        let other = side(call, self.product.bytes_mut(), lent.bytes_mut());
        let answer = side::reference(call, &mut self.reference, &mut output);
        if other != answer {
            return Err(format!("the product answers {other:?}, the Rust program {answer:?}"));
        }
        same("output", lent.bytes(), &output)?;
        same("store", self.product.bytes(), &self.reference)?;
        if !(lent.guards_stand() && self.product.guards_stand()) {
            return Err("a byte outside the lent ones was written".to_string());
        }
        match (call.name, answer.number) {
            (Name::InsertXml, 0) => self.read_back(call, side)?,
            (Name::Migrate, 0) => self.migrate_again(&before, answer.mask, side)?,
            _ => {}
        }
        Ok(answer)
    }

    /// Whether a second migration changes no byte, and its mask has the first's bits and those of what the first changed.
    fn migrate_again(&mut self, before: &[u8], mask: u32, side: Side) -> Result<(), String> {
        let mut again = self.product.bytes().to_vec();
        let answer = side(&generate::migration(), &mut again, &mut []);
        let parts = before.as_chunks::<PARTITION>().0.iter().zip(again.as_chunks::<PARTITION>().0);
        let changed =
            (0..).zip(parts).filter(|(_, (one, two))| one != two).fold(0, |bits, (label, _)| bits | 1 << label);
        if (answer.number, answer.mask) != (0, mask | changed) {
            return Err(format!("a second migration answers {answer:?}, the first {mask}, it changed {changed}"));
        }
        same("store after a second migration", &again, self.product.bytes())
    }

    /// Whether the product's XML of a style that was taken in is the text, siblings in path order.
    fn read_back(&mut self, call: &Call, side: Side) -> Result<(), String> {
        let (view, xml) = sent::read_back(call).ok_or("a text was taken in that does not read")?;
        let mut output = vec![0; view.output];
        let Answer { number, count, .. } = side(&view, self.product.bytes_mut(), &mut output);
        if (number, count) != (0, xml.len() as u64) {
            return Err(format!("the view of what was taken in answers {number}, {count}"));
        }
        same("XML of what was taken in", &output, &xml)
    }
}

/// Whether a call takes an output.
fn has_output(name: Name) -> bool {
    matches!(name, Name::View | Name::ViewXml)
}

/// Where two outputs or stores differ first, if they do.
fn same(what: &str, product: &[u8], reference: &[u8]) -> Result<(), String> {
    if product == reference {
        return Ok(());
    }
    let at = product.iter().zip(reference).position(|(one, two)| one != two).unwrap_or(0);
    Err(format!("byte {at} of the {what}: the product leaves {}, the Rust program {}", product[at], reference[at]))
}
