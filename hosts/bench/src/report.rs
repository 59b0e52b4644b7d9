//! The report: the table in Markdown, and where it stands in a document.
use crate::measure::Times;
use crate::rows::{Growth, HIGH_BAR, Migrated, Row, TEST_BAR};
use std::fmt::Write;
use std::fs;
use std::io;
use std::path::Path;

/// The line before the part of the document that is written here.
const BEGIN: &str = "<!-- written by hosts/bench/run from here -->";
/// The line behind it.
const END: &str = "<!-- to here -->";

/// How it was measured.
const METHOD: &str = "In each round a batch of the product's calls and one of the Rust program's follow each other on the same buffers: 16
stores in turn and one output. The buffers are warm, an untimed turn comes before each batch. After each call the
subject's partition is laid back, a copy of 1,284 bytes that both times hold. The elements are spread evenly over the
labels, a single one has the subject's; all of them are live. The view of a path, Insert, Update and Delete take one
element near the middle of its partition, of the subject's label and with nothing of it below; an insert's elements count
the one that it inserts. An even grade has such an element for its top and the first of label 0 for its base, or the top
again where there is no other; both are made measures. An XML intake has that first element, or the root, for its parent
and finds the subject's partition empty; its elements count those that it makes. Its text has up to five levels, with
siblings in random order. An insert that makes groups has a path of the subject's label alone whose first step is new;
its elements count all that it makes. The well-formedness test is timed as a call that is refused right after it, for its
path. The runner's time is a whole run of the program, from a file into a file. No text holds a character that XML
escapes. After a migration, and after the tests that it is held to, the whole store is laid back; the time of that is
measured too and taken off. The stores that are migrated are full, but for the empty one: with versions of one name of
each label that a partition's dominates, so that four blocks change places where it has level 3; and with paths that have
one name five times and differ in the levels of these steps, which come the other way round.
";
/// The head of the table of migrations.
const MIGRATIONS: &str = "The migration in terms of the product's own test of all partitions, on the store that the migration leaves, for which
the bar is 2.00:

| Store | Elements | Migration | Test of all partitions | Ratio | Bar |
|---|--:|--:|--:|--:|--:|
";
/// The head of the table of growth.
const GROWTH: &str = "As the store grows: a view of all by 31, its cost for each line (each visible element), and the
well-formedness test alone, each for the product and for the Rust program. Here all sizes take turns within a round, so
that the processor has had other work before each batch.

| Elements | View, product | Rust | Ratio | A line, product | Rust | Test, product | Rust | Ratio |
|--:|--:|--:|--:|--:|--:|--:|--:|--:|
";

/// What was measured.
pub struct Report {
    pub date: String,
    pub seed: u64,
    pub rounds: usize,
    pub runs: usize,
    pub floor: f64,
    pub calls: Vec<Row>,
    pub group_inserts: Vec<Row>,
    pub intakes: Vec<Row>,
    pub migrations: Vec<Migrated>,
    pub refusals: Vec<Row>,
    pub runner: Row,
    pub growth: Vec<Growth>,
}

impl Report {
    /// All rows that have a bar.
    fn rows(&self) -> impl Iterator<Item = &Row> {
        let calls = self.calls.iter().chain(&self.group_inserts).chain(&self.intakes);
        let calls = calls.chain(self.migrations.iter().map(|migrated| &migrated.migration));
        calls.chain(&self.refusals).chain(std::iter::once(&self.runner))
    }

    /// Each migration in terms of the product's own test of all partitions.
    fn against_tests(&self) -> impl Iterator<Item = Row> {
        self.migrations.iter().map(|Migrated { migration, test }| Row {
            name: migration.name.clone(),
            elements: migration.elements,
            times: Times { product: migration.times.product, reference: test.product },
            bar: TEST_BAR,
        })
    }

    /// The report as Markdown.
    pub fn markdown(&self) -> String {
        let parts = [self.head(), self.verdict(), self.table(), self.migration_table(), self.growth_table()];
        parts.join("\n")
    }

    /// The machine, the date and how it was measured.
    fn head(&self) -> String {
        let Report { date, seed, rounds, runs, floor, .. } = self;
        format!(
            "Measured on {date}, with seed {seed}, on this machine:\n{}.\n\n\
             Each time is the median of {rounds} rounds (the runner's: of {runs} runs).\n{METHOD}\n\
             To read each byte of the store once, eight at a time, takes {}. That is the floor of a call by 31, who\n\
             dominates every partition.\n",
            machine(),
            time(*floor),
        )
    }

    /// Which rows are above their bar.
    fn verdict(&self) -> String {
        let above: Vec<&Row> = self.rows().filter(|row| row.is_above()).collect();
        let grown = self.growth.iter().flat_map(|growth| [growth.view, growth.test]);
        let mut text = format!(
            "The bar is 1.00 for View, as lines and as XML, the even grade, XML intake, inserts that make groups, the migration\n\
             and the well-formedness test, and 1.20 for the others.\n\
             Above it are {} of the {} rows of the first table, {} of the {} of the second and {} of the {} ratios of the third.{}\n",
            above.len(),
            self.rows().count(),
            self.against_tests().filter(Row::is_above).count(),
            self.migrations.len(),
            grown.filter(|times| is_above(*times, HIGH_BAR)).count(),
            2 * self.growth.len(),
            if above.is_empty() { "" } else { " Of the first:\n" },
        );
        for row in above {
            let _ = writeln!(
                text,
                "- {}, elements {}: {:.2}, the bar is {:.2}.",
                row.name,
                row.elements,
                row.times.ratio(),
                row.bar
            );
        }
        text
    }

    /// The table of all rows.
    fn table(&self) -> String {
        let head = "| Call | Elements | Product | Rust program | Ratio | Bar |\n|---|--:|--:|--:|--:|--:|\n";
        head.to_string() + &self.rows().map(line).collect::<String>()
    }

    /// The table of migrations against the test of all partitions.
    fn migration_table(&self) -> String {
        MIGRATIONS.to_string() + &self.against_tests().map(|row| line(&row)).collect::<String>()
    }

    /// The table of the cost per visible element.
    fn growth_table(&self) -> String {
        let mut text = GROWTH.to_string();
        for Growth { elements, view, test } in &self.growth {
            let share = |time: f64| self::time(time / *elements as f64);
            let cells = [
                elements.to_string(),
                time(view.product),
                time(view.reference),
                ratio(*view, HIGH_BAR),
                share(view.product),
                share(view.reference),
                time(test.product),
                time(test.reference),
                ratio(*test, HIGH_BAR),
            ];
            let _ = writeln!(text, "| {} |", cells.join(" | "));
        }
        text + "\n![Cost against elements](performance.svg)\n"
    }
}

impl Row {
    /// Whether the row is above its bar.
    fn is_above(&self) -> bool {
        is_above(self.times, self.bar)
    }
}

/// Whether a ratio is above a bar, as it is printed.
fn is_above(times: Times, bar: f64) -> bool {
    (times.ratio() * 100.0).round() > bar * 100.0
}

/// A ratio as it is printed; one above the bar stands out.
fn ratio(times: Times, bar: f64) -> String {
    let mark = if is_above(times, bar) { "**" } else { "" };
    format!("{mark}{:.2}{mark}", times.ratio())
}

/// A row's line.
fn line(row: &Row) -> String {
    let Row { name, elements, times, bar } = row;
    let (product, reference, ratio) = (time(times.product), time(times.reference), ratio(*times, *bar));
    format!("| {name} | {elements} | {product} | {reference} | {ratio} | {bar:.2} |\n")
}

/// A time with its unit.
fn time(nanoseconds: f64) -> String {
    match nanoseconds {
        short if short < 1_000.0 => format!("{short:.1} ns"),
        middle if middle < 1_000_000.0 => format!("{:.2} µs", middle / 1_000.0),
        long => format!("{:.1} ms", long / 1_000_000.0),
    }
}

/// The processor and how many there are.
fn machine() -> String {
    let about = fs::read_to_string("/proc/cpuinfo").unwrap_or_default();
    let field = |name: &str| about.lines().find(|line| line.starts_with(name)).and_then(|line| line.split(": ").nth(1));
    let number = std::thread::available_parallelism().map_or(1, usize::from);
    let model = field("model name").unwrap_or("a processor without a name");
    let numbers = [("family", "cpu family"), ("model", "model\t"), ("MHz", "cpu MHz"), ("cache", "cache size")];
    let numbers = numbers.iter().filter_map(|(word, name)| field(name).map(|value| format!("{word} {value}")));
    format!("{model} ({}), {number} processors", numbers.collect::<Vec<_>>().join(", "))
}

/// Writes the report into a document: between the two marked lines, or into a new one.
pub fn put(document: &Path, report: &str) -> io::Result<()> {
    let fresh = format!("# Performance\n\n{BEGIN}\n{END}\n");
    let old = fs::read_to_string(document).unwrap_or(fresh);
    let (Some(begin), Some(end)) = (old.find(BEGIN), old.find(END)) else {
        return Err(io::Error::other(format!("{} lacks the marked lines", document.display())));
    };
    fs::write(document, format!("{}{BEGIN}\n\n{report}\n{}", &old[..begin], &old[end..]))
}

#[cfg(test)]
mod tests {
    use super::*;

    /// A row with these times and this bar.
    fn row(product: f64, bar: f64) -> Row {
        Row { name: "View".to_string(), elements: 1, times: Times { product, reference: 100.0 }, bar }
    }

    #[test]
    fn a_row_above_its_bar_stands_out() {
        assert!(!row(120.4, 1.2).is_above() && row(121.0, 1.2).is_above());
        assert!(line(&row(130.0, 1.2)).contains("**1.30**"));
        assert!(!line(&row(100.0, 1.0)).contains("**"));
    }

    #[test]
    fn times_have_units() {
        assert_eq!([12.34, 1_234.0, 12_340_000.0].map(time), ["12.3 ns", "1.23 µs", "12.3 ms"]);
    }

    #[test]
    fn what_is_written_by_hand_stays() {
        let document = std::env::temp_dir().join(format!("performance-{}.md", std::process::id()));
        fs::write(&document, format!("before\n{BEGIN}\nold\n{END}\nbehind\n")).expect("the file can be written");
        put(&document, "new").expect("the marked lines are there");
        let text = fs::read_to_string(&document).expect("the file was written");
        fs::remove_file(&document).expect("the file is there");
        assert!(text.starts_with("before\n") && text.ends_with(&format!("{END}\nbehind\n")), "{text}");
        assert!(text.contains("new") && !text.contains("old"), "{text}");
    }
}
