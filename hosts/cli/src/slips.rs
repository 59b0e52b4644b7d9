//! Why a script's line does not read, in a sentence. What is said is made from the line alone.

use std::fmt;

use crate::script::{self, LINE_BYTES_MAX};

/// Why a line does not read.
#[derive(Clone, Debug, PartialEq, Eq)]
pub enum Slip {
    Empty,
    Long,
    Mark,
    Comment,
    Return,
    Arrows,
    Spaces,
    NoTab,
    TwoTabs,
    Blank,
    Verb(Vec<u8>),
    Fields { verb: u8, found: usize, wanted: usize },
    Subject(Vec<u8>),
    Path { whole: Vec<u8>, step: Vec<u8> },
    Kind(Vec<u8>),
    GroupValue(Vec<u8>),
    Measure(Vec<u8>),
    Text(Vec<u8>),
}

impl Slip {
    /// The slip as a person would name it who sees the whole line.
    pub fn of_line(self, line: &[u8]) -> Slip {
        match self {
            _ if line.starts_with("\u{feff}".as_bytes()) => Slip::Mark,
            _ if line.starts_with(b"#") => Slip::Comment,
            _ if line.ends_with(b"\r") => Slip::Return,
            Slip::NoTab if line.windows(3).any(|three| three == "→".as_bytes()) => Slip::Arrows,
            Slip::NoTab | Slip::Verb(_) | Slip::Fields { .. } if reads_with_tabs(line) => Slip::Spaces,
            Slip::Verb(verb) if verb.is_empty() && line.windows(2).any(|two| two == b"\t\t") => Slip::TwoTabs,
            Slip::Path { whole: field, .. } | Slip::Measure(field) | Slip::GroupValue(field)
                if field.ends_with(b" ") =>
            {
                Slip::Blank
            }
            slip => slip,
        }
    }

    /// What is said of a slip that needs nothing of the line.
    fn plain(&self) -> &'static str {
        match self {
            Slip::Empty => "the line is empty; every line has to be a call",
            Slip::Mark => "the line begins with a byte order mark; save the script as UTF-8 without one",
            Slip::Comment => "there are no comments; every line has to be a call",
            Slip::Return => "the line ends in a carriage return (byte 13): save the script with line ends of Unix",
            Slip::Arrows => "here are arrows, which the documents print for tabs; write tabs",
            Slip::Spaces => "the fields have to be parted by one tab each, and here are spaces",
            Slip::NoTab => "there is no tab; the fields are subject, verb and path, parted by one tab each",
            Slip::TwoTabs => "two tabs stand together where the verb should be; the fields are parted by one tab each",
            Slip::Blank => "a space stands at the end of the line",
            _ => "",
        }
    }
}

/// Whether a line reads once tabs stand in place of its first spaces.
fn reads_with_tabs(line: &[u8]) -> bool {
    let words: Vec<&[u8]> = line.split(|byte| *byte == b' ').filter(|word| !word.is_empty()).collect();
    let reads = |tabs: usize| {
        let (first, rest) = words.split_at(tabs.min(words.len()));
        let joined = [first.join(&b'\t'), rest.join(&b' ')].join(&b'\t');
        words.len() > tabs && script::read_fields(&joined).is_ok()
    };
    (1..5).any(reads)
}

/// How bytes of a line are shown: as they are, or with numbers where they are no text; of long ones the beginning.
fn shown(bytes: &[u8]) -> String {
    let text = match str::from_utf8(bytes) {
        Ok(text) if text.chars().all(|letter| letter.is_alphanumeric() || (' '..='~').contains(&letter)) => {
            text.to_string()
        }
        _ => bytes.escape_ascii().to_string(),
    };
    let first: String = text.chars().take(40).collect();
    if first.len() < text.len() { format!("'{first}...'") } else { format!("'{first}'") }
}

impl fmt::Display for Slip {
    fn fmt(&self, out: &mut fmt::Formatter<'_>) -> fmt::Result {
        match self {
            Slip::Long => write!(out, "the line is over {LINE_BYTES_MAX} bytes long"),
            Slip::Verb(verb) => write!(out, "the verb is {}; it has to be V, I, U or D, in capitals", shown(verb)),
            Slip::Fields { verb, found, wanted } => write_fields(out, char::from(*verb), *found, *wanted),
            Slip::Subject(field) => {
                write!(
                    out,
                    "the subject is {}; it has to be a label's number from 0 to 31, without leading zeros",
                    shown(field)
                )
            }
            Slip::Path { whole, step } => write!(
                out,
                "the path {} has the step {}; a step is NAME:LABEL, two numbers without leading zeros, as 10:0, the name up to \
                 65535 and the label up to 31; steps are parted by /, and the root alone is /",
                shown(whole),
                shown(step)
            ),
            Slip::Kind(kind) => write!(out, "the kind is {}; it has to be G, M or T, in capitals", shown(kind)),
            Slip::GroupValue(value) => write!(out, "the value of a group is -, and here is {}", shown(value)),
            Slip::Measure(value) => write!(
                out,
                "the measure is {}; it has to be a whole number of hundredths of a millimetre from -2147483648 to 2147483647, \
                 without plus, point or leading zeros",
                shown(value)
            ),
            Slip::Text(value) => write!(
                out,
                "the text {} has a character that is not allowed; texts are of ASCII alone, from the space to ~",
                shown(value)
            ),
            plain => out.write_str(plain.plain()),
        }
    }
}

/// What is said of a line with too many or too few fields.
fn write_fields(out: &mut fmt::Formatter<'_>, verb: char, found: usize, wanted: usize) -> fmt::Result {
    let fields = if wanted == 3 { "subject, verb and path" } else { "subject, verb, path, kind and value" };
    write!(out, "a line of {verb} has {wanted} fields, {fields}, parted by one tab each, and here are {found}")
}

#[cfg(test)]
mod tests {
    use super::*;
    use crate::script::read_line;

    /// The slip of a line.
    fn slip(line: &[u8]) -> Slip {
        read_line(line).expect_err("a slip")
    }

    #[test]
    fn each_slip_is_told_apart() {
        let verb = |text: &[u8]| Slip::Verb(text.to_vec());
        assert_eq!(slip(b""), Slip::Empty);
        assert_eq!(slip(&[b'x'; 257]), Slip::Long);
        assert_eq!(slip("\u{feff}0\tV\t/".as_bytes()), Slip::Mark);
        assert_eq!(slip(b"# a comment"), Slip::Comment);
        assert_eq!(slip(b"0\tV\t/\r"), Slip::Return);
        assert_eq!(slip(b"\r"), Slip::Return);
        assert_eq!(slip("0→V→/".as_bytes()), Slip::Arrows);
        assert_eq!(slip(b"0 V /"), Slip::Spaces);
        assert_eq!(slip(b"0\tI 1:0\tG\t-"), Slip::Spaces);
        assert_eq!(slip(b"0\tI\t1:0\tT NEW SEAM"), Slip::Spaces);
        assert_eq!(slip(b"0\tI\t1:0\tT\tNEW SEAM\t"), Slip::Fields { verb: b'I', found: 6, wanted: 5 });
        assert_eq!(slip(b"0\tX\t1:0\tT\tNEW SEAM"), verb(b"X"));
        assert_eq!(slip(b"0  I  1:0  T  NEW SEAM"), Slip::Spaces);
        assert_eq!(slip(b"0\tI\t1:0\tNEW SEAM"), Slip::Fields { verb: b'I', found: 4, wanted: 5 });
        assert_eq!(slip(b"0\t"), verb(b""));
        assert_eq!(slip(b"hello"), Slip::NoTab);
        assert_eq!(slip(b"0\tv\t/"), verb(b"v"));
        assert_eq!(slip(b"0\t\tV\t/"), Slip::TwoTabs);
        assert_eq!(slip(b"0\tV"), Slip::Fields { verb: b'V', found: 2, wanted: 3 });
        assert_eq!(slip(b"0\tI\t1:0\tG"), Slip::Fields { verb: b'I', found: 4, wanted: 5 });
        assert_eq!(slip(b"0\tV\t/\t"), Slip::Fields { verb: b'V', found: 4, wanted: 3 });
        assert_eq!(slip(b"256\tV\t/"), Slip::Subject(b"256".to_vec()));
        assert_eq!(slip(b"house\tV\t/"), Slip::Subject(b"house".to_vec()));
    }

    #[test]
    fn paths_and_values_are_told_apart() {
        let steps: [&[u8]; 6] = [b"", b"10", b"010:0", b"65536:0", b"1:256", b"1:-0"];
        for step in steps {
            assert_eq!(slip(&[b"0\tV\t", step].concat()), Slip::Path { whole: step.to_vec(), step: step.to_vec() });
        }
        assert_eq!(slip(b"0\tV\t10:0/"), Slip::Path { whole: b"10:0/".to_vec(), step: vec![] });
        assert_eq!(slip(b"0\tV\t/ "), Slip::Blank);
        assert!(matches!(slip(b"0\tI\t010:0\tT\tABC "), Slip::Path { .. }));
        assert_eq!(slip(b"0\tI\t1:0\tX\t-"), Slip::Kind(b"X".to_vec()));
        assert_eq!(slip(b"0\tI\t1:0\tG\t0"), Slip::GroupValue(b"0".to_vec()));
        assert_eq!(slip(b"0\tI\t1:0\tM\t5 "), Slip::Blank);
        let measures: [&[u8]; 8] = [b"", b"-", b"-0", b"+1", b"01", b"1.5", b"2147483648", b"-2147483649"];
        for measure in measures {
            assert_eq!(slip(&[b"0\tI\t1:0\tM\t", measure].concat()), Slip::Measure(measure.to_vec()));
        }
        assert_eq!(slip(b"0\tI\t1:0\tT\tcaf\xc3\xa9"), Slip::Text(b"caf\xc3\xa9".to_vec()));
    }

    #[test]
    fn bytes_are_shown_as_they_can_be() {
        assert_eq!(shown(b"x\x7f"), r"'x\x7f'");
        assert_eq!(shown("ÄRMEL".as_bytes()), "'ÄRMEL'");
        assert_eq!(shown(b"\xff\t"), r"'\xff\t'");
        assert_eq!(shown("x\u{202e}y".as_bytes()), r"'x\xe2\x80\xaey'");
        assert_eq!(shown(&[b'9'; 60]), format!("'{}...'", "9".repeat(40)));
    }

    #[test]
    fn each_slip_has_a_sentence() {
        let lines: [&[u8]; 10] = [
            b"",
            &[b'x'; 257],
            b"#",
            b"\r",
            b"0 V",
            b"0",
            b"0\t\t",
            b"0\tV\t/ ",
            "→".as_bytes(),
            "\u{feff}".as_bytes(),
        ];
        assert!(lines.into_iter().all(|line| slip(line).to_string().len() > 20));
    }
}
