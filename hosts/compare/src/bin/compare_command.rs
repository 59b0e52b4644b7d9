//! Gives random scripts to the command, which runs them on stores in a file, and compares what it prints, leaves and ends
//! with. The Rust runner tells what is expected, and the product's runner and dossier_file are compared with it, too.
use reference::STORE;
use reference::label::LABELS;
use reference::partition::{PARTITION, SLOT};
use reference::programs::{self, Answers, Outcome, Range};
use reference::random::Random;
use reference::script::Runner;
use reference::scripts;
use std::fs::{self, File};
use std::io::{self, ErrorKind};
use std::path::PathBuf;
use std::process::{Command, ExitCode};

/// How many bytes of what a program says on standard error are shown at most.
const SHOWN: usize = 500;

/// What the command line asks for.
struct Plan {
    dossier: String,
    runner: String,
    dossier_file: String,
    range: Range,
}

/// Why the comparison ends early: something differs, or a program or a file could not be used.
enum End {
    Differs(String),
    Failed(io::Error),
}

/// A folder of the comparison's own, which is removed at the end: it holds the store, the script and what a program says
/// on standard error.
struct Folder(PathBuf);

/// What was compared so far.
#[derive(Default)]
struct Tally {
    lines: usize,
    bytes: usize,
    answers: Answers,
    runs: u64,
    script_files: u64,
    strict_done: u64,
    strict_refused: u64,
    made: u64,
    corrupted: u64,
    random: u64,
    other_lengths: u64,
    missing: u64,
}

/// The comparison.
struct Course<'a> {
    plan: &'a Plan,
    folder: Folder,
    tally: Tally,
}

fn main() -> ExitCode {
    let Some(plan) = read_arguments() else {
        eprintln!("compare_command DOSSIER RUNNER DOSSIER_FILE [--seed N] [--scripts N] [--script N]");
        return ExitCode::from(2);
    };
    println!("seed {}", plan.range.seed);
    programs::end(compare(&plan), "compare_command")
}

/// Reads the command line.
fn read_arguments() -> Option<Plan> {
    let mut arguments = std::env::args().skip(1);
    let (dossier, runner, dossier_file) = (arguments.next()?, arguments.next()?, arguments.next()?);
    Some(Plan { dossier, runner, dossier_file, range: Range::read(arguments, 100)? })
}

/// Compares on every script: whether nothing differs and all was met that can be met.
fn compare(plan: &Plan) -> io::Result<bool> {
    let mut course = Course { plan, folder: Folder::new()?, tally: Tally::default() };
    for number in plan.range.numbers() {
        match course.compare(number) {
            Ok(()) => {}
            Err(End::Failed(error)) => return Err(error),
            Err(End::Differs(what)) => {
                let Plan { dossier, runner, dossier_file, range: Range { seed, .. } } = plan;
                println!("DIFFERENCE: {what}");
                println!("again: compare_command {dossier} {runner} {dossier_file} --seed {seed} --script {number}");
                return Ok(false);
            }
        }
    }
    course.tally.print();
    let is_complete = plan.range.only.is_some() || course.tally.is_complete();
    if !is_complete {
        println!("not all was met that can be met");
    }
    Ok(is_complete)
}

/// What a run of a script on the runner's store has to leave. The script is carried out on it.
fn outcome_of(runner: &mut Runner, script: &[u8]) -> io::Result<Outcome> {
    let mut printed = Vec::new();
    runner.run(script, &mut printed)?;
    Ok(Outcome { printed, file: Some(runner.store().to_vec()), status: Some(0) })
}

/// Cuts a script in two at its beginning or at a line's end.
fn cut<'a>(random: &mut Random, script: &'a [u8]) -> [&'a [u8]; 2] {
    let is_cut = |at: &usize| *at == 0 || script[at - 1] == b'\n';
    let cuts: Vec<usize> = (0..=script.len()).filter(is_cut).collect();
    script.split_at(random.pick(&cuts)).into()
}

/// Puts random bytes onto partitions: onto one or several of them, and onto some of the bytes or all.
fn corrupt(random: &mut Random, store: &mut [u8]) {
    for _ in 0..random.pick(&[1, 1, 2, 5]) {
        let length = random.pick(&[1, 4, SLOT, PARTITION]);
        let at = PARTITION * random.below(LABELS.into()) + random.below(PARTITION - length + 1);
        store[at..at + length].copy_from_slice(&random.bytes(length));
    }
}

/// Bytes of another length than a store's: zeros or random ones.
fn of_another_length(random: &mut Random) -> Vec<u8> {
    let (shorter, longer) = (random.below(STORE), STORE + 1 + random.below(STORE));
    let length = random.pick(&[0, 1, PARTITION, STORE - 1, STORE + 1, 2 * STORE, shorter, longer]);
    if random.percent(50) { vec![0; length] } else { random.bytes(length) }
}

impl From<io::Error> for End {
    fn from(error: io::Error) -> End {
        End::Failed(error)
    }
}

impl Folder {
    /// A new folder below that for temporary files.
    fn new() -> io::Result<Folder> {
        let path = std::env::temp_dir().join(format!("compare_command-{}", std::process::id()));
        fs::create_dir(&path)?;
        Ok(Folder(path))
    }

    /// The path of a file in it.
    fn path(&self, name: &str) -> PathBuf {
        self.0.join(name)
    }

    /// Makes the store's file one of these bytes, or lets it be missing.
    fn put(&self, store: Option<&[u8]>) -> io::Result<()> {
        match (store, fs::remove_file(self.path("store"))) {
            (_, Err(error)) if error.kind() != ErrorKind::NotFound => Err(error),
            (Some(bytes), _) => fs::write(self.path("store"), bytes),
            (None, _) => Ok(()),
        }
    }

    /// The bytes of the store's file, if it is not missing.
    fn store(&self) -> io::Result<Option<Vec<u8>>> {
        match fs::read(self.path("store")) {
            Err(error) if error.kind() == ErrorKind::NotFound => Ok(None),
            read => read.map(Some),
        }
    }

    /// The beginning of what the last program said on standard error.
    fn said(&self) -> io::Result<String> {
        let said = fs::read(self.path("said"))?;
        Ok(String::from_utf8_lossy(&said[..said.len().min(SHOWN)]).into_owned())
    }
}

impl Drop for Folder {
    fn drop(&mut self) {
        if let Err(error) = fs::remove_dir_all(&self.0) {
            eprintln!("{}: {error}", self.0.display());
        }
    }
}

impl Tally {
    /// Counts a script and what it prints.
    fn count(&mut self, script: &[u8], printed: &[u8]) {
        self.lines += script.iter().filter(|byte| **byte == b'\n').count();
        self.bytes += printed.len();
        programs::count_answers(printed, &mut self.answers);
    }

    /// Prints the counts.
    fn print(&self) {
        let Tally { lines, bytes, answers, runs, script_files, strict_done, strict_refused, .. } = self;
        let Tally { made, corrupted, random, other_lengths, missing, .. } = self;
        println!("{lines} lines, {bytes} bytes printed, no difference");
        println!("answers 0 to 10 and ?: {answers:?}");
        println!("{runs} runs of the command, {script_files} of them with a script file");
        println!("strict runs: {strict_done} with status 0, {strict_refused} with status 1");
        println!("other stores: {made} made by a script, {corrupted} corrupted, {random} of random bytes");
        println!("no stores: {other_lengths} files of another length, {missing} missing");
    }

    /// Whether everything was met that can be met. An answer of 1 cannot: there are no calls on a store of another length.
    fn is_complete(&self) -> bool {
        let stores = [self.made, self.corrupted, self.random, self.other_lengths, self.missing];
        let ways = [self.script_files, self.runs - self.script_files, self.strict_done, self.strict_refused];
        let are_answers_met = (0..12).all(|number| (self.answers[number] > 0) == (number != 1));
        are_answers_met && !stores.contains(&0) && !ways.contains(&0)
    }
}

impl Course<'_> {
    /// Compares from the empty store and from another one, and now and then where there is no store.
    fn compare(&mut self, number: u64) -> Result<(), End> {
        let mut random = Random::part(self.plan.range.seed, number);
        self.start_empty(&mut random, number)?;
        self.start_other(&mut random, number)?;
        if number.is_multiple_of(3) { self.start_none(&mut random, number) } else { Ok(()) }
    }

    /// A script from the empty store; one in twenty is large. The command in one run, the product's runner, and the command
    /// in two runs on one file.
    fn start_empty(&mut self, random: &mut Random, number: u64) -> Result<(), End> {
        let mix = if number.is_multiple_of(20) { scripts::large() } else { scripts::short(random) };
        let script = scripts::script_of(random, &mix, &mut Runner::new());
        let whole = outcome_of(&mut Runner::new(), &script)?;
        self.tally.count(&script, &whole.printed);
        self.put_empty(random)?;
        self.run_command(random, &script, &whole)?;
        self.folder.put(None)?;
        let printed_alone = Outcome { file: None, ..whole.clone() };
        self.run(random, &mut Command::new(&self.plan.runner), &script, &printed_alone)?;
        self.put_empty(random)?;
        let mut runner = Runner::new();
        let mut printed = Vec::new();
        for part in cut(random, &script) {
            printed.extend(self.run_command(random, part, &outcome_of(&mut runner, part)?)?);
        }
        let together = Outcome { printed, file: self.folder.store()?, status: Some(0) };
        together.difference(&whole).map_or(Ok(()), |what| Err(End::Differs(format!("in two runs together: {what}"))))
    }

    /// A script from another store: the command, and dossier_file.
    fn start_other(&mut self, random: &mut Random, number: u64) -> Result<(), End> {
        let start = self.other_store(random, number);
        let mix = scripts::short(random);
        let script = scripts::script_of(random, &mix, &mut Runner::on(start.clone()));
        let expected = outcome_of(&mut Runner::on(start.clone()), &script)?;
        self.tally.count(&script, &expected.printed);
        self.folder.put(Some(&start))?;
        self.run_command(random, &script, &expected)?;
        self.folder.put(Some(&start))?;
        let mut command = Command::new(&self.plan.dossier_file);
        self.run(random, command.arg(self.folder.path("store")), &script, &expected)?;
        Ok(())
    }

    /// A store of the right length: one that another script made, which may be corrupted then, or random bytes.
    fn other_store(&mut self, random: &mut Random, number: u64) -> Vec<u8> {
        if number % 20 == 10 {
            self.tally.random += 1;
            return random.bytes(STORE);
        }
        let mix = if random.percent(30) { scripts::large() } else { scripts::short(random) };
        let mut runner = Runner::new();
        scripts::script_of(random, &mix, &mut runner);
        let mut store = runner.store().to_vec();
        if random.percent(40) {
            self.tally.corrupted += 1;
            corrupt(random, &mut store);
        } else {
            self.tally.made += 1;
        }
        store
    }

    /// A script on a file of another length, or on a missing one: the command prints nothing, leaves it and says so.
    fn start_none(&mut self, random: &mut Random, number: u64) -> Result<(), End> {
        let file = if number.is_multiple_of(15) { None } else { Some(of_another_length(random)) };
        self.tally.missing += u64::from(file.is_none());
        self.tally.other_lengths += u64::from(file.is_some());
        let mix = scripts::short(random);
        let script = scripts::script_of(random, &mix, &mut Runner::new());
        self.folder.put(file.as_deref())?;
        self.run_command(random, &script, &Outcome { printed: Vec::new(), file, status: Some(3) })?;
        if self.folder.said()?.is_empty() {
            return Err(End::Differs("the command says nothing of a file that holds no store".to_string()));
        }
        Ok(())
    }

    /// Makes the file one of an empty store: zeros are written, or now and then the command makes it.
    fn put_empty(&mut self, random: &mut Random) -> Result<(), End> {
        let empty = [0; STORE];
        if random.percent(80) {
            return Ok(self.folder.put(Some(&empty))?);
        }
        self.folder.put(None)?;
        let mut command = Command::new(&self.plan.dossier);
        command.arg("new").arg(self.folder.path("store"));
        let expected = Outcome { printed: Vec::new(), file: Some(empty.to_vec()), status: Some(0) };
        self.run(random, &mut command, &[], &expected)?;
        Ok(())
    }

    /// Runs a script by the command and compares what it leaves: what it printed. What is expected is told without options;
    /// where --strict is given, a refusal makes the status 1, and --explain changes nothing. The script comes in pieces, or it
    /// is a file, and what comes in pieces is not to be carried out.
    fn run_command(&mut self, random: &mut Random, script: &[u8], expected: &Outcome) -> Result<Vec<u8>, End> {
        let (is_strict, is_explained, is_file) = (random.percent(30), random.percent(20), random.percent(40));
        let is_refused = is_strict && programs::has_refusal(&expected.printed);
        let status = if is_refused { Some(1) } else { expected.status };
        let mut command = Command::new(&self.plan.dossier);
        command.arg("run").args(is_strict.then_some("--strict")).args(is_explained.then_some("--explain"));
        command.arg(self.folder.path("store"));
        if is_file {
            fs::write(self.folder.path("script"), script)?;
            command.arg(self.folder.path("script"));
        }
        self.tally.runs += 1;
        self.tally.script_files += u64::from(is_file);
        self.tally.strict_done += u64::from(is_strict && status == Some(0));
        self.tally.strict_refused += u64::from(is_refused);
        let input = if is_file { b"31\tV\t/\n" } else { script };
        self.run(random, &mut command, input, &Outcome { status, ..expected.clone() })
    }

    /// Runs a program, to which the input is given in pieces, and compares what it leaves: what it printed.
    fn run(
        &self,
        random: &mut Random,
        command: &mut Command,
        input: &[u8],
        expected: &Outcome,
    ) -> Result<Vec<u8>, End> {
        command.stderr(File::create(self.folder.path("said"))?);
        let driven = programs::drive(command, input, random);
        let (printed, status) = driven.map_err(|error| io::Error::other(format!("{command:?}: {error}")))?;
        let outcome = Outcome { printed, file: self.folder.store()?, status: status.code() };
        match outcome.difference(expected) {
            None => Ok(outcome.printed),
            Some(what) => Err(End::Differs(format!("{command:?}: {what}; it says {:?}", self.folder.said()?))),
        }
    }
}
