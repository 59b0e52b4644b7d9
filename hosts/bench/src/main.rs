//! The product's time against the Rust program's: a table, and with --write the document and the plot.
mod measure;
mod plot;
mod report;
mod rows;
#[path = "../../compare/src/bin/compare/side.rs"]
mod side;
mod stores;

use report::Report;
use std::io;
use std::path::PathBuf;

/// How many elements the stores of the table have.
const ELEMENTS: [usize; 4] = [1, 32, 256, 1024];
/// How many the stores of the growth have.
const GROWTH: [usize; 7] = [1, 32, 64, 128, 256, 512, 1024];

/// What the command line asks for.
struct Plan {
    root: PathBuf,
    date: String,
    seed: u64,
    short: bool,
    write: bool,
}

fn main() -> io::Result<()> {
    let Some(plan) = read_arguments() else {
        eprintln!("bench ROOT DATE [--seed N] [--short] [--write]");
        std::process::exit(2);
    };
    println!("seed {}\n", plan.seed);
    let report = measure_all(&plan)?;
    println!("{}", report.markdown());
    if plan.write {
        report::put(&plan.root.join("docs/PERFORMANCE.md"), &report.markdown())?;
        std::fs::write(plan.root.join("docs/performance.svg"), plot::svg(&report.growth, report.floor))?;
    }
    Ok(())
}

/// Reads the command line.
fn read_arguments() -> Option<Plan> {
    let mut arguments = std::env::args().skip(1);
    let root = arguments.next()?.into();
    let mut plan = Plan { root, date: arguments.next()?, seed: 1, short: false, write: false };
    while let Some(argument) = arguments.next() {
        match argument.as_str() {
            "--seed" => plan.seed = arguments.next()?.parse().ok()?,
            "--short" => plan.short = true,
            "--write" => plan.write = true,
            _ => return None,
        }
    }
    Some(plan)
}

/// Measures every row.
fn measure_all(plan: &Plan) -> io::Result<Report> {
    let Plan { seed, short, .. } = *plan;
    let (rounds, runs, lines) = if short { (11, 3, 10_000) } else { (501, 21, 100_000) };
    let scratch = plan.root.join("hosts/bench/target");
    Ok(Report {
        date: plan.date.clone(),
        seed,
        rounds,
        runs,
        floor: measure::floor(&vec![1; reference::STORE], rounds),
        calls: ELEMENTS.iter().flat_map(|elements| rows::calls(seed, *elements, rounds)).collect(),
        group_inserts: rows::group_inserts(seed, rounds),
        intakes: rows::intakes(seed, rounds),
        migrations: rows::migrations(seed, rounds),
        refusals: [rows::refusals(seed, rounds), rows::intake_refusals(seed, rounds)].into_iter().flatten().collect(),
        runner: rows::runner(seed, lines, runs, &plan.root, &scratch)?,
        growth: rows::growth(seed, &GROWTH, rounds),
    })
}
