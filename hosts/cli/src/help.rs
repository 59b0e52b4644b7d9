//! The commands, and what their help says.

use std::ffi::OsStr;

use crate::arguments::Words;
use crate::failure::{Done, Failure};
use crate::{chart, diff, explain, migrate, new, owner, run, take, view};

/// An option of a command.
pub struct CommandOption {
    /// Its name, with its dashes.
    pub name: &'static str,
    /// What its value is, if it has one.
    pub value: Option<&'static str>,
    /// Whether it has to be given.
    pub is_needed: bool,
    /// What it does.
    about: &'static str,
}

/// A command.
pub struct Command {
    /// Its name.
    pub name: &'static str,
    /// The words that it takes, in their order.
    pub words: &'static [&'static str],
    /// How many of them have to be given.
    pub least: usize,
    /// Its options.
    pub options: &'static [CommandOption],
    /// What carries it out.
    pub carry_out: fn(&Words) -> Result<Done, Failure>,
    /// What it does, in a line.
    line: &'static str,
    /// What it does, in full.
    about: &'static str,
}

/// An option with a value.
const fn valued(name: &'static str, value: &'static str, is_needed: bool, about: &'static str) -> CommandOption {
    CommandOption { name, value: Some(value), is_needed, about }
}

/// An option without a value.
const fn flag(name: &'static str, about: &'static str) -> CommandOption {
    CommandOption { name, value: None, is_needed: false, about }
}

/// The label under which a view is made.
const AS: CommandOption = valued("--as", "LABEL", true, "the subject: a number from 0 to 31, or words as house+sizing");
/// Not waiting for a file in use.
const NO_WAIT: CommandOption = flag("--no-wait", "where the file is in use, say so and end with 3 instead of waiting");

/// All commands.
const COMMANDS: [Command; 9] = [
    Command {
        name: "new",
        words: &["FILE"],
        least: 1,
        options: &[],
        carry_out: new::new,
        line: "make an empty store; refuses to overwrite",
        about: "Makes FILE with an empty store of 41,088 bytes, readable by its owner alone. A file that is there\n\
                already is not touched.\n",
    },
    Command {
        name: "run",
        words: &["FILE", "SCRIPT"],
        least: 1,
        options: &[
            flag("--explain", "say on standard error why a line is refused or does not read"),
            flag("--strict", "end with 1 if a line was refused or did not read"),
            NO_WAIT,
        ],
        carry_out: run::run,
        line: "carry out a script of calls on a store in a file",
        about: "Carries out the calls of SCRIPT, or of standard input where it is left out or -, on the store in\n\
                FILE, and prints what each answers. The store is saved at the end, all at once, if it has changed.\n\
                The file is locked from reading to saving. docs/GUIDE.md shows how a script is written.\n",
    },
    Command {
        name: "view",
        words: &["FILE", "PATH"],
        least: 1,
        options: &[
            AS,
            valued("--format", "FORMAT", false, "lines, table, csv, html or xml; table if it is left out"),
            NO_WAIT,
        ],
        carry_out: view::view,
        line: "show what a label sees",
        about: "Shows PATH, as 10:0/20:16, and all below it that the label sees; without PATH, the whole tree.\n\
                lines and xml are the bytes that the calls write, measures in hundredths of a millimetre; table,\n\
                csv and html have measures in millimetres.\n",
    },
    Command {
        name: "diff",
        words: &["FILE", "PATH"],
        least: 1,
        options: &[AS, valued("--than", "LABEL", true, "the other subject"), NO_WAIT],
        carry_out: diff::diff,
        line: "show what one label sees and another does not",
        about: "Lists the elements at and below PATH that --as sees and --than does not. It ends with 1 if there\n\
                are any. Of two labels of which neither dominates the other, each may see what the other does not:\n\
                ask both ways.\n",
    },
    Command {
        name: "chart",
        words: &["FILE", "PATH"],
        least: 1,
        options: &[
            AS,
            valued("-o", "PAGE.html", true, "the page to write; - is standard output"),
            valued("--date", "YYYY-MM-DD", false, "the date on the page; today's (UTC) if it is left out"),
            NO_WAIT,
        ],
        carry_out: chart::chart,
        line: "write a page to print",
        about: "Writes one HTML page that needs no other file, for A4 and Letter: the tree with its texts, and a\n\
                table of measures in millimetres with a bar each. It holds nothing that the label does not see.\n",
    },
    Command {
        name: "take",
        words: &["FILE", "PARENT", "STYLE.xml"],
        least: 3,
        options: &[AS, NO_WAIT],
        carry_out: take::take,
        line: "take in a style sent as XML",
        about: "Puts the style, one XML element as dossier view --format xml writes it, below PARENT (/ is the\n\
                root): all of its elements or none. An outer dossier tag and a last line end are left off. Each\n\
                element has to bear the label of --as. STYLE.xml may be -, standard input.\n",
    },
    Command {
        name: "migrate",
        words: &["FILE"],
        least: 1,
        options: &[NO_WAIT],
        carry_out: migrate::migrate,
        line: "bring a store that was written before the path order changed into the order of now",
        about: "For the file's owner, once, before calls resume: brings a store that was written before the path\n\
                order changed (request 7/14) into the order of now, and says of the partitions that were left\n\
                what that means. dossier check tells whether it is needed. A store that is in the order of now\n\
                already is not changed. It ends with 1 if a broken partition was left.\n",
    },
    Command {
        name: "check",
        words: &["FILE"],
        least: 1,
        options: &[NO_WAIT],
        carry_out: owner::check,
        line: "count each label's elements and find broken partitions",
        about: "For the file's owner: for each label its elements, its free slots, and whether its partition is\n\
                well formed. It ends with 1 if one is not.\n",
    },
    Command {
        name: "explain",
        words: &["NUMBER | SCRIPT"],
        least: 0,
        options: &[],
        carry_out: explain::explain,
        line: "say what a refusal means, or what is wrong with a script",
        about: "Of a NUMBER says what the refusal means and what to do about it; without a word, of all. Of a\n\
                SCRIPT (- is standard input) says for each line why it does not read, or by which number it is\n\
                refused on any store that is well formed; it ends with 1 if there is such a line. No store is\n\
                looked at.\n",
    },
];

/// The command of a name.
pub fn command(name: &OsStr) -> Option<&'static Command> {
    COMMANDS.iter().find(|command| name == command.name)
}

/// The name and version of this program.
pub fn version() -> String {
    format!("dossier {}\n", env!("CARGO_PKG_VERSION"))
}

/// How a command is called.
fn usage(command: &Command) -> String {
    let mut text = format!("dossier {}", command.name);
    for (at, word) in command.words.iter().enumerate() {
        text += &if at < command.least { format!(" {word}") } else { format!(" [{word}]") };
        if at == 0 {
            text += &needed(command);
        }
    }
    text
}

/// The options that a command has to be given.
fn needed(command: &Command) -> String {
    let options = command.options.iter().filter(|option| option.is_needed);
    options.map(|option| format!(" {} {}", option.name, option.value.unwrap_or_default())).collect()
}

/// The help of a command.
pub fn text(command: &Command) -> String {
    let mut text = format!("usage: {}\n\n{}\n", usage(command), command.about);
    for option in command.options {
        let name = format!("{} {}", option.name, option.value.unwrap_or_default());
        text += &format!("  {name:<18} {}\n", option.about);
    }
    text + "  --help             this help\n  --version          the version\n"
}

/// The help of them all.
pub fn overview() -> String {
    let mut text = "usage: dossier COMMAND ..., a labelled dossier store in a file\n\n".to_string();
    for command in &COMMANDS {
        text += &format!("  {}\n      {}\n", usage(command), command.line);
    }
    text += "\nA LABEL is a number from 0 to 31 or words: open, trade, house or sealed with +sizing, +fabric, +cost.\n\
             A PATH is steps NAME:LABEL parted by /, as 10:0/20:16; / is the root.\n\n\
             Exit status: 0 done; 1 a call was refused, a line did not read (run --strict, explain), diff found a\n\
             difference, or check or migrate a broken partition; 2 usage; 3 a file could not be opened, locked,\n\
             read or saved.\n\n\
             dossier COMMAND --help says more of a command, docs/GUIDE.md of scripts and labels.\n";
    text
}
