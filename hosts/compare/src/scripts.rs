//! Random scripts for the tests: the same for the same random numbers.
use crate::label::{LABELS, dominates};
use crate::partition::partition;
use crate::path::{DEPTH, Path, Step};
use crate::random::Random;
use crate::script::Runner;

/// Numbers at the ends of the ranges, and texts that are no numbers.
const NUMBERS: [&str; 22] = [
    "0",
    "1",
    "31",
    "32",
    "40",
    "255",
    "256",
    "65535",
    "65536",
    "2147483647",
    "2147483648",
    "4294967295",
    "4294967296",
    "4294967297",
    "18446744073709551617",
    "-1",
    "-0",
    "+1",
    "01",
    "00",
    "",
    " 1",
];
/// Measures at the ends of their range, and texts that are none.
const MEASURES: [&str; 18] = [
    "0",
    "-1",
    "150",
    "-150",
    "2147483647",
    "-2147483647",
    "-2147483648",
    "2147483648",
    "-2147483649",
    "-0",
    "-00",
    "--1",
    "+5",
    "007",
    "-",
    "",
    "9999999999999999999999",
    "-4294967297",
];

/// The verbs of a script that keeps its store small.
const MIXED: &[&str] = &["V", "V", "I", "I", "I", "I", "U", "D"];
/// The verbs of a script whose store grows.
const GROWING: &[&str] = &["I", "I", "I", "I", "I", "I", "I", "I", "I", "I", "I", "I", "V", "U", "D"];
/// The verbs of a script that fills its store: nothing is taken from it.
const FILLING: &[&str] = &["I", "I", "I", "I", "I", "I", "I", "I", "I", "I", "I", "I", "V"];

/// What a script is made of: its lines, their verbs and labels, and how many of a hundred are spoiled.
pub struct Mix {
    lines: usize,
    verbs: &'static [&'static str],
    labels: Vec<u8>,
    spoiled: usize,
}

/// A random mix.
fn mix(random: &mut Random) -> Mix {
    let few = [0, 1, 3, 8, 9, 16, 17, 24, 31];
    let labels = if random.percent(50) { (0..LABELS).collect() } else { few[..1 + random.below(few.len())].to_vec() };
    let lines = random.pick(&[0, 1, 5, 100, 400, 1000, 4000]);
    Mix { lines, verbs: random.pick(&[MIXED, GROWING]), labels, spoiled: random.pick(&[0, 5, 30]) }
}

/// A random mix of fewer lines.
pub fn short(random: &mut Random) -> Mix {
    Mix { lines: random.pick(&[0, 1, 2, 5, 20, 50, 100, 200]), ..mix(random) }
}

/// The mix of a script whose listings outgrow the output space.
pub fn large() -> Mix {
    Mix { lines: 4000, verbs: FILLING, labels: (0..LABELS).collect(), spoiled: 0 }
}

/// A random script on a fresh store; one in twenty is large.
pub fn script(random: &mut Random, number: u64) -> Vec<u8> {
    let mix = if number.is_multiple_of(20) { large() } else { mix(random) };
    script_of(random, &mix, &mut Runner::new())
}

/// A random script of this mix. It goes by what the runner's store holds, on which it is carried out. Its last line may
/// lack its byte 10.
pub fn script_of(random: &mut Random, mix: &Mix, runner: &mut Runner) -> Vec<u8> {
    let mut script = Vec::new();
    for _ in 0..mix.lines {
        let mut line = line(random, mix, runner.store());
        if random.percent(mix.spoiled) {
            spoil(random, &mut line);
        }
        runner.answer(&line, &mut Vec::new());
        script.extend(line);
        script.push(b'\n');
    }
    if random.percent(30) {
        script.pop();
    }
    script
}

/// The root, a live path, or a beginning of one.
fn known_path(random: &mut Random, store: &[u8]) -> Path {
    let parts = (0..4).map(|_| partition(store, random.below(LABELS.into()) as u8));
    let part = parts.max_by_key(|part| part.count().min(1)).expect("four were tried");
    let slot = part.slots().nth(random.below(part.count().max(1)));
    let path = slot.map_or(Path::default(), |slot| slot.path());
    let depth = if random.percent(70) { path.depth() } else { random.below(path.depth() + 1) };
    Path::new(&path.steps()[..depth])
}

/// A random line. It goes by what the store holds.
fn line(random: &mut Random, mix: &Mix, store: &[u8]) -> Vec<u8> {
    let verb = random.pick(mix.verbs);
    let root = verb == "V" && random.percent(40);
    let from = if root { Path::default() } else { known_path(random, store) };
    let path = if verb == "I" && random.percent(90) { child(random, mix, &from) } else { from };
    let subject = subject(random, &path, verb);
    let path = path_text(random, &path);
    let fields = match verb {
        "I" | "U" => format!("{subject}\t{verb}\t{path}\t{}", value(random)),
        _ => format!("{subject}\t{verb}\t{path}"),
    };
    fields.into_bytes()
}

/// A path one step longer, or one of one step now and then and where it would be too deep. Now and then it is longer by
/// more steps.
fn child(random: &mut Random, mix: &Mix, parent: &Path) -> Path {
    let top = parent.depth() == DEPTH || random.percent(40);
    let mut path = if top { Path::default() } else { *parent };
    let more = if random.percent(25) { 1 + random.below(DEPTH - path.depth()) } else { 1 };
    let mut label = label_below(random, mix, &path);
    for at in 0..more {
        if at > 0 && random.percent(10) {
            label = label_below(random, mix, &path);
        }
        let name = 1 + random.below(60_000) as u16;
        path.push(Step { name: random.pick(&[1, 2, 9, 255, 256, name, name, name]), label });
    }
    path
}

/// A label for a step behind a path: it mostly dominates the last one.
fn label_below(random: &mut Random, mix: &Mix, above: &Path) -> u8 {
    let dominating = |label: &u8| above.label().is_none_or(|low| dominates(*label, low));
    let labels: Vec<u8> = mix.labels.iter().copied().filter(dominating).collect();
    let any = labels.is_empty() || random.percent(3);
    random.pick(if any { &mix.labels } else { &labels })
}

/// A path as a script has it. Now and then it has a step more or an odd number.
fn path_text(random: &mut Random, path: &Path) -> String {
    let mut steps: Vec<String> = path.steps().iter().map(|step| format!("{}:{}", step.name, step.label)).collect();
    if random.percent(2) {
        steps.push(format!("{}:{}", random.pick(&NUMBERS), random.pick(&NUMBERS)));
    }
    if random.percent(1) {
        steps.resize(7, "1:31".to_string());
    }
    if steps.is_empty() { "/".to_string() } else { steps.join("/") }
}

/// A subject: mostly that of the path's last label, or any for a view.
fn subject(random: &mut Random, path: &Path, verb: &str) -> String {
    if random.percent(3) {
        return random.pick(&NUMBERS).to_string();
    }
    let own = path.label().unwrap_or(31);
    let any = if random.percent(50) { 31 } else { random.below(32) as u8 };
    if random.percent(if verb == "V" { 30 } else { 92 }) { own.to_string() } else { any.to_string() }
}

/// A kind and a value.
fn value(random: &mut Random) -> String {
    match random.below(20) {
        0..4 => "G\t-".to_string(),
        4..10 => format!("M\t{}", random.bits() as i32 % 100_000),
        10 => format!("M\t{}", random.pick(&MEASURES)),
        11..18 => format!("T\t{}", text(random, 16)),
        18 => format!("T\t{}", text(random, 240)),
        _ => random
            .pick(&["G\t", "G\tx", "G\t--", "g\t-", "X\t1", "\t", "T", "M", "T\ta\tb", "GM\t-", "0\t-"])
            .to_string(),
    }
}

/// A text of up to this many printable bytes.
fn text(random: &mut Random, longest: usize) -> String {
    (0..random.below(longest + 1)).map(|_| char::from(32 + random.below(95) as u8)).collect()
}

/// Makes a line another one: a byte changed, put in or taken out, or its length brought near or over 256.
fn spoil(random: &mut Random, line: &mut Vec<u8>) {
    let at = random.below(line.len() + 1);
    let any = random.byte();
    let byte = random.pick(&[b'\t', b' ', b'/', b':', b'-', b'+', b'0', b'1', b'\r', 0, 127, 128, any]);
    match random.below(8) {
        0 | 1 => line.insert(at, byte),
        2 | 3 if at < line.len() => line[at] = byte,
        4 if at < line.len() => drop(line.remove(at)),
        5 => line.truncate(at),
        6 => line.resize(random.pick(&[254, 255, 256, 257, 258, 300, 512, 513, 5000, 70_000]), b'x'),
        _ => *line = long_line(random),
    }
}

/// An insert with a long path or a long text, about 256 bytes.
fn long_line(random: &mut Random) -> Vec<u8> {
    let length = random.pick(&[254, 255, 256, 257, 258]);
    let mut line = if random.percent(50) { b"0\tI\t1:0\tT\t".to_vec() } else { b"31\tV\t1:0".to_vec() };
    while line.len() < length {
        let piece: &[u8] = if line.starts_with(b"0") { b"y" } else { b"/1:0" };
        line.extend_from_slice(piece);
    }
    line
}
