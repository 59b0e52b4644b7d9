//! The robustness of XML intake: a good text cut, changed and torn at each place, random bytes, texts of a megabyte and
//! large groups of siblings. The product is compared with the Rust program each time, and both with the number that is
//! known beforehand, if one is.
use crate::generate::plain;
use crate::lent::Lent;
use crate::sent::Sent;
use crate::side::{Call, Name, Side};
use crate::texts::{pieces, tree};
use crate::{Course, Difference, Stores};
use reference::STORE;
use reference::random::Random;
use std::time::{Duration, Instant, UNIX_EPOCH};

/// The subject who sends the texts.
const SUBJECT: u8 = 16;
/// The parent, 10:0, as bytes.
const PARENT: [u8; 3] = [10, 0, 0];
/// How long the product may take for one text.
const LIMIT: Duration = Duration::from_secs(2);
/// About a megabyte.
const MEGABYTE: usize = 1_000_000;
/// How many siblings a long text has.
const SIBLINGS: usize = 22_000;
/// The bytes that take the place of others.
const BYTES: [u8; 24] = *b"<>/&\"'=;- +e019GTx\t\n\0\x7f\x80\xff";
/// How many other bytes are tried for each byte.
const OTHERS: usize = 20;
/// How many siblings the groups have, near the sizes at which a reader may change its way.
const SIZES: [usize; 12] = [31, 32, 33, 34, 511, 512, 513, 514, 1024, 1025, 1026, 1537];
/// The places in a group at which one of two equal siblings stands, where the group is so long; its end too.
const PLACES: [usize; 20] =
    [0, 1, 30, 31, 32, 33, 63, 64, 510, 511, 512, 513, 542, 543, 544, 545, 1023, 1024, 1025, 1536];

/// The processor's time for this thread so far, or the clock's where the system does not tell it.
pub fn spent() -> Duration {
    let told = std::fs::read_to_string("/proc/thread-self/schedstat").ok();
    let time = told.and_then(|told| told.split(' ').next()?.parse().ok());
    time.map_or_else(|| UNIX_EPOCH.elapsed().unwrap_or_default(), Duration::from_nanos)
}

/// What is tried, and what was compared so far.
struct Trial<'a> {
    course: &'a mut Course,
    random: Random,
    side: Side,
    start: Vec<u8>,
    stores: Stores,
}

/// Tries all texts.
pub fn run(course: &mut Course, seed: u64, side: Side) -> Result<(), Difference> {
    let mut trial = Trial::new(course, seed, side);
    trial.changes(&good())?;
    trial.random_texts()?;
    trial.large_texts()
}

/// Tries the large texts alone.
pub fn run_large(course: &mut Course, seed: u64, side: Side) -> Result<(), Difference> {
    Trial::new(course, seed, side).large_texts()
}

/// A good text of six steps with each kind of value, all escapes among them.
fn good() -> Vec<u8> {
    let element = |name, kind: &str, value: &str, inside: Vec<Sent>| {
        let (kind, value) = (kind.to_string(), value.to_string());
        Sent { kind, value, inside, ..Sent::group(name, SUBJECT) }
    };
    let deep = element(65535, "M", "2147483647", vec![element(5, "T", "&lt;/e5&gt; \"'", vec![])]);
    let sleeve = element(3, "T", "a &amp; b", vec![element(256, "G", "", vec![deep]), element(1, "M", "0", vec![])]);
    let inside = vec![sleeve, element(12, "M", "-2147483648", vec![]), element(2, "G", "", vec![])];
    element(20, "T", "&amp;&amp;&amp;&amp;SIXTEEN CHAR", inside).text()
}

/// A group with these inside it.
fn around(inside: Vec<Sent>) -> Sent {
    Sent { inside, ..Sent::group(20, SUBJECT) }
}

/// So many groups, of names from 1 on.
fn siblings(count: usize) -> Vec<Sent> {
    (1..=count as u32).map(|name| Sent::group(name, SUBJECT)).collect()
}

/// So many groups, of which two are equal.
fn equal(count: usize, first: usize, second: usize) -> Vec<Sent> {
    let mut group = siblings(count);
    group[second] = group[first].clone();
    group
}

/// So many groups that differ in name or label; each label comes under each name.
fn versions(count: usize) -> Vec<Sent> {
    (0..count as u32).map(|number| Sent::group(1 + number / 32, (number % 32) as u8)).collect()
}

/// The number of a group of so many siblings that all differ, with the one around them: room for all, or not.
fn number_of(count: usize) -> u32 {
    if count < 32 { 0 } else { 9 }
}

/// The pairs of telling places in a group of so many siblings.
fn pairs(count: usize) -> Vec<(usize, usize)> {
    let places: Vec<usize> =
        PLACES.into_iter().filter(|place| *place + 2 < count).chain([count - 2, count - 1]).collect();
    let behind = |at: usize| places[at + 1..].iter().map(move |second| (at, *second));
    (0..places.len()).flat_map(behind).map(|(at, second)| (places[at], second)).collect()
}

impl Trial<'_> {
    /// A trial on a store that holds the parent alone.
    fn new(course: &mut Course, seed: u64, side: Side) -> Trial<'_> {
        let mut start = vec![0; STORE];
        reference::insert(&mut start, 0, &PARENT, 0, &[]);
        let stores = Stores { product: Lent::new(&start, 0), reference: start.clone() };
        Trial { course, random: Random::part(seed, u64::MAX), side, start, stores }
    }

    /// Large groups of siblings, and texts of a megabyte.
    fn large_texts(&mut self) -> Result<(), Difference> {
        self.groups()?;
        self.nested_groups()?;
        self.long_texts()
    }

    /// Sends a text on both sides: it is answered in time and by this number, if one is known.
    fn send(&mut self, text: Vec<u8>, known: Option<u32>) -> Result<(), Difference> {
        let call = Call { text, ..plain(Name::InsertXml, SUBJECT.into(), PARENT.to_vec()) };
        let result = self.try_send(&call, known);
        result.map_err(|what| Difference { again: "--robust".to_string(), call: Box::new(call), what })
    }

    /// Sends the text of a call: what is different, if something is.
    fn try_send(&mut self, call: &Call, known: Option<u32>) -> Result<(), String> {
        let begin = Instant::now();
        let answer = self.stores.both(&mut self.random, call, self.side)?;
        let is_quick = begin.elapsed() <= LIMIT;
        self.course.count(call, answer);
        self.course.texts += 1;
        if let Some(number) = known.filter(|number| answer.number != *number) {
            return Err(format!("both answer {}, and it must be {number}", answer.number));
        }
        if answer.number == 0 {
            self.stores.set(&self.start);
        }
        if is_quick { Ok(()) } else { self.try_time(call) }
    }

    /// Whether the product answers in time; other work that comes between does not count.
    fn try_time(&mut self, call: &Call) -> Result<(), String> {
        let begin = spent();
        (self.side)(call, &mut self.start.clone(), &mut []);
        let time = spent().saturating_sub(begin);
        if time <= LIMIT { Ok(()) } else { Err(format!("the product takes {time:?}")) }
    }

    /// Sends a tree.
    fn send_tree(&mut self, sent: &Sent, number: u32) -> Result<(), Difference> {
        self.send(sent.text(), Some(number))
    }

    /// A good text: as it is, cut at each byte, each byte changed, and each tag doubled and dropped.
    fn changes(&mut self, text: &[u8]) -> Result<(), Difference> {
        self.send(text.to_vec(), Some(0))?;
        for at in 0..text.len() {
            self.send(text[..at].to_vec(), Some(13))?;
            self.send(text[at + 1..].to_vec(), Some(13))?;
            for byte in BYTES.into_iter().filter(|byte| *byte != text[at]).take(OTHERS) {
                let mut other = text.to_vec();
                other[at] = byte;
                self.send(other, None)?;
            }
        }
        let pieces = pieces(text);
        for at in 0..pieces.len() {
            let known = pieces[at].starts_with(b"<").then_some(13);
            self.send([&pieces[..at], &pieces[at + 1..]].concat().concat(), known)?;
            self.send([&pieces[..=at], &pieces[at..]].concat().concat(), known)?;
        }
        Ok(())
    }

    /// Random bytes, random pieces of the form, and random trees.
    fn random_texts(&mut self) -> Result<(), Difference> {
        let good = good();
        let pieces = pieces(&good);
        for _ in 0..2000 {
            let length = self.random.below(200);
            let bytes = self.random.bytes(length);
            self.send(bytes, Some(13))?;
            let some = (0..self.random.below(12)).map(|_| self.random.pick(&pieces)).collect::<Vec<_>>();
            self.send(some.concat(), None)?;
            let count = 1 + self.random.below(40);
            let sent = tree(&mut self.random, 20, SUBJECT, count, 5);
            self.send_tree(&sent, if count <= 32 { 0 } else { 9 })?;
        }
        Ok(())
    }

    /// Groups of siblings: all different, in order and not; two equal at telling places; and two that differ in little.
    fn groups(&mut self) -> Result<(), Difference> {
        for count in SIZES {
            self.send_tree(&around(siblings(count)), number_of(count))?;
            self.send_tree(&around(siblings(count).into_iter().rev().collect()), number_of(count))?;
            self.send_tree(&around(versions(count)), 14)?;
            for (first, second) in pairs(count) {
                self.pair(siblings(count), first, second, number_of(count))?;
                self.pair(versions(count), first, second, 14)?;
            }
        }
        Ok(())
    }

    /// A group with two siblings that are equal in name and label, in name, in label, and in a name's lower bits.
    fn pair(&mut self, mut group: Vec<Sent>, first: usize, second: usize, number: u32) -> Result<(), Difference> {
        let one = group[first].clone();
        group[second] = Sent { kind: "M".to_string(), value: "7".to_string(), ..one.clone() };
        self.send_tree(&around(group.clone()), 13)?;
        let label = if one.label == "31" { "17" } else { "31" };
        let number_of_name = one.name.parse::<u32>().unwrap_or(0);
        group[second] = Sent { label: label.to_string(), ..one.clone() };
        if group.iter().filter(|element| (&element.name, &element.label[..]) == (&one.name, label)).count() == 1 {
            self.send_tree(&around(group.clone()), 14)?;
        }
        for more in [16_384, 32_768] {
            let name = (number_of_name + more).to_string();
            group[second] = Sent { end: name.clone(), name, ..one.clone() };
            self.send_tree(&around(group.clone()), number)?;
        }
        Ok(())
    }

    /// Groups inside siblings of groups, of each size.
    fn nested_groups(&mut self) -> Result<(), Difference> {
        for size in SIZES {
            for (outer, inner) in [(2, size), (33, size), (size, 2), (size, 33), (size, size)] {
                for place in [0, outer / 2, outer - 1] {
                    self.nested(outer, inner, place)?;
                }
            }
            self.deep(size)?;
        }
        Ok(())
    }

    /// A group inside the sibling at this place: all differ, in label alone too; two equal inside; two equal around it.
    fn nested(&mut self, outer: usize, inner: usize, place: usize) -> Result<(), Difference> {
        let with = |inside: Vec<Sent>| {
            let mut group = siblings(outer);
            group[place].inside = inside;
            group
        };
        self.send_tree(&around(with(siblings(inner))), 9)?;
        self.send_tree(&around(with(versions(inner))), 14)?;
        for (first, second) in [(0, inner - 1), (inner - 2, inner - 1), (inner / 2, inner - 1)] {
            if first != second {
                self.send_tree(&around(with(equal(inner, first, second))), 13)?;
            }
        }
        let mut group = with(siblings(inner));
        let other = if place == 0 { outer - 1 } else { 0 };
        group[other] = Sent { inside: Vec::new(), ..group[place].clone() };
        self.send_tree(&around(group), 13)
    }

    /// Groups inside the last sibling of each other, six steps deep: all differ, two equal in the innermost, two in the
    /// outermost.
    fn deep(&mut self, size: usize) -> Result<(), Difference> {
        let within = |mut group: Vec<Sent>, inside: Vec<Sent>| {
            group[size - 1].inside = inside;
            group
        };
        let nest = |innermost: Vec<Sent>| (0..2).fold(innermost, |inside, _| within(siblings(size), inside));
        self.send_tree(&around(within(siblings(size), nest(siblings(size)))), 9)?;
        self.send_tree(&around(within(siblings(size), nest(equal(size, 0, size - 1)))), 13)?;
        self.send_tree(&around(within(equal(size, 0, size - 1), nest(siblings(size)))), 13)
    }

    /// Texts of a megabyte.
    fn long_texts(&mut self) -> Result<(), Difference> {
        let tag = format!(r#"<e1 label="{SUBJECT}" preserve="PRESENT" kind="G">"#);
        let start = |kind: &str| format!(r#"<e1 label="{SUBJECT}" preserve="PRESENT" kind="{kind}">"#);
        for (head, repeated) in [
            ("", "<e1 "),
            ("", &tag[..]),
            ("", "</e1>"),
            ("", " "),
            ("<e", "1"),
            ("<e1 label=\"", "1"),
            (&start("M"), "1"),
            (&start("M"), "-"),
            (&start("T"), "a"),
            (&start("T"), "&amp;"),
            (&start("G"), "</e1>"),
            (&start("G"), "<e2"),
        ] {
            self.send([head, &repeated.repeat(MEGABYTE / repeated.len())].concat().into_bytes(), Some(13))?;
        }
        let all = siblings(SIBLINGS);
        self.send_tree(&around(all.clone()), 9)?;
        self.send([around(all.clone()).text(), b"x".to_vec()].concat(), Some(13))?;
        self.send_tree(&around(versions(SIBLINGS)), 14)?;
        self.deep(SIBLINGS / 4)?;
        for (first, second) in [(0, SIBLINGS - 1), (SIBLINGS - 2, SIBLINGS - 1), (SIBLINGS / 2, SIBLINGS - 1)] {
            for mut group in [all.clone(), versions(SIBLINGS)] {
                group[second] = group[first].clone();
                self.send_tree(&around(group.clone()), 13)?;
                group.reverse();
                self.send_tree(&around(group), 13)?;
            }
        }
        Ok(())
    }
}
