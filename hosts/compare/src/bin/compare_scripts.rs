//! Gives random scripts to the product's runner by a pipe, in pieces, and compares what it prints with the Rust runner.
use reference::programs::{self, Answers, Range};
use reference::random::Random;
use reference::{script, scripts};
use std::io;
use std::process::{Command, ExitCode};

/// What the command line asks for.
struct Plan {
    runner: String,
    range: Range,
}

fn main() -> ExitCode {
    let Some(plan) = read_arguments() else {
        eprintln!("compare_scripts RUNNER [--seed N] [--scripts N] [--script N]");
        return ExitCode::from(2);
    };
    println!("seed {}", plan.range.seed);
    programs::end(compare(&plan), &plan.runner)
}

/// Reads the command line.
fn read_arguments() -> Option<Plan> {
    let mut arguments = std::env::args().skip(1);
    Some(Plan { runner: arguments.next()?, range: Range::read(arguments, 2_000)? })
}

/// Compares the two on every script: whether they agree and the scripts met each answer.
fn compare(plan: &Plan) -> io::Result<bool> {
    let (mut lines, mut bytes, mut answers) = (0, 0, Answers::default());
    for number in plan.range.numbers() {
        let mut random = Random::part(plan.range.seed, number);
        let script = scripts::script(&mut random, number);
        let printed = run_product(&plan.runner, &script, &mut random)?;
        let mut expected = Vec::new();
        script::run(script.as_slice(), &mut expected)?;
        if let Some(line) = programs::differing_line(&printed, &expected) {
            println!("DIFFERENCE at {line}");
            println!("again: compare_scripts {} --seed {} --script {number}", plan.runner, plan.range.seed);
            return Ok(false);
        }
        lines += script.iter().filter(|byte| **byte == b'\n').count();
        bytes += printed.len();
        programs::count_answers(&printed, &mut answers);
    }
    println!("{lines} lines, {bytes} bytes printed, no difference");
    println!("answers 0 to 10 and ?: {answers:?}");
    Ok(plan.range.only.is_some() || are_met(&answers))
}

/// Whether each answer that a script can meet was met. Its store has the right length and is never corrupted.
fn are_met(answers: &Answers) -> bool {
    (0..12).all(|number| (answers[number] > 0) != matches!(number, 1 | 3))
}

/// Runs the product's runner on a script that comes in pieces: what it prints.
fn run_product(runner: &str, script: &[u8], random: &mut Random) -> io::Result<Vec<u8>> {
    let (printed, status) = programs::drive(&mut Command::new(runner), script, random)?;
    if !status.success() {
        return Err(io::Error::other(format!("the runner ended with {status}")));
    }
    Ok(printed)
}
