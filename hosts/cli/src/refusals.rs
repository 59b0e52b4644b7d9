//! Refusals in words. What is said of a script's line is made from its answer and the line alone, so that it says no more than
//! the subject may know.

use dossier::{Label, Path, Refusal};

use crate::script::{Call, OUTPUT_BYTES, Step, Verb};
use crate::shown::named;

/// What to do about each refusal.
const ADVICE: [(Refusal, &str); Refusal::ALL.len()] = [
    (Refusal::StoreLength, "Lend a store's bytes, all of them. dossier new makes a file with an empty one."),
    (Refusal::Subject, "A label is a number from 0 to 31: level x 8 + compartments."),
    (
        Refusal::NotWellFormed,
        "The store's owner looks with dossier check. One that was written before the path order changed is brought into the \
         order of now by dossier migrate; a broken one has to come from a copy that was kept.",
    ),
    (
        Refusal::Path,
        "It has one to six steps with names from 1 to 65535 and labels from 0 to 31, each label dominating the one before. The \
         root alone, /, may be viewed and be the parent of a style; nothing else may be done with it.",
    ),
    (
        Refusal::Value,
        "A group has none; a measure is a whole number of 32 bits with a sign; a text has 1 to 16 characters of ASCII, bytes 32 \
         to 126.",
    ),
    (
        Refusal::OtherLabel,
        "A subject writes elements of its own label alone: end the path in that label, or make the call under the path's.",
    ),
    (
        Refusal::Absent,
        "A view, a grade and the parent of a style need a path in view. An insert needs its parent in view, or missing steps that \
         all bear the subject's label. An update and a delete need a live element. Whether something is hidden or missing is not \
         told.",
    ),
    (Refusal::Live, "Change its value by an update, or delete it first."),
    (
        Refusal::Full,
        "It holds at most 32 elements, missing groups counted: delete some of this label, or divide them among labels.",
    ),
    (
        Refusal::OutputShort,
        "In a script it has 16,384 bytes: view a path further down, or use dossier view, which has room for every view. A host \
         lends a longer output.",
    ),
    (Refusal::Sizes, "Give another number of sizes."),
    (Refusal::NoMeasure, "Give two live measures: no group, text, removed element or root."),
    (
        Refusal::Form,
        "It has to be one element, byte for byte as dossier view --format xml PATH writes it inside the dossier tag, siblings in any \
         order: no white space between tags, no declaration, values that are allowed, six steps at most with the parent's, no two \
         siblings equal in name and label.",
    ),
    (Refusal::NotOwn, "Send the style under its own label, and only what is PRESENT."),
];

/// What a refusal means, in a sentence, and what to do about it.
pub fn meaning(refusal: Refusal) -> (String, &'static str) {
    let row = ADVICE.iter().find(|(this, _)| *this == refusal);
    (sentence(refusal.cause()), row.map_or("", |(_, advice)| advice))
}

/// Words with a capital letter and a full stop.
fn sentence(words: &str) -> String {
    let mut letters = words.chars();
    let first = letters.next().map(|letter| letter.to_uppercase().to_string());
    first.unwrap_or_default() + letters.as_str() + "."
}

/// A refusal, with all that can be said of any call.
pub fn of_any(refusal: Refusal) -> String {
    let (cause, advice) = meaning(refusal);
    format!("refused by {}: {cause} {advice}", refusal.number())
}

/// Why a view of a path was refused.
pub fn of_view(refusal: Refusal, subject: Label, path: &Path) -> String {
    let step = |(name, label): (u16, Label)| Step { name, label: label.into() };
    let call = Call { subject: subject.number(), steps: path.steps().map(step).collect(), verb: Verb::View };
    of_call(refusal.number(), &call)
}

/// Why a style was not taken in below a parent.
pub fn of_take(refusal: Refusal, subject: Label, parent: &Path) -> String {
    let cause = match refusal {
        Refusal::Live => format!("the style's own element is live below {parent} already"),
        Refusal::Full => format!("label {} has no room for all of its elements; 32 are the most", named(subject)),
        Refusal::Form | Refusal::NotOwn => return of_any(refusal),
        other => return of_view(other, subject, parent),
    };
    format!("refused by {}: {cause}", refusal.number())
}

/// Why a script's call was refused by a number.
pub fn of_call(number: u32, call: &Call) -> String {
    let cause = match Refusal::from_number(number) {
        Some(refusal) => cause(refusal, call),
        None => "the library is of another version".to_string(),
    };
    format!("refused by {number}: {cause}")
}

/// The cause of a refusal, for this call.
fn cause(refusal: Refusal, call: &Call) -> String {
    let (subject, path) = (label_named(call.subject), call.path_text());
    match refusal {
        Refusal::Subject => format!("subject {subject} is no label; labels are 0 to 31"),
        Refusal::NotWellFormed => {
            format!(
                "a partition that {subject} dominates is not well formed; the store's owner can see it with dossier check"
            )
        }
        Refusal::Path => path_cause(call),
        Refusal::Value => value_cause(call),
        Refusal::OtherLabel => {
            let last = call.steps.last().map_or(String::new(), |step| label_named(step.label.into()));
            format!(
                "{path} ends in label {last}, and the subject is {subject}: a subject writes elements of its own label alone"
            )
        }
        Refusal::Absent => absent_cause(call),
        Refusal::Live => format!("{path} is live already; U in place of I changes its value"),
        Refusal::Full => format!("label {subject} has no room for it: 32 elements at most, missing groups counted"),
        Refusal::OutputShort => {
            format!(
                "the view of {path} is longer than {OUTPUT_BYTES} bytes; view a path further down, or use dossier view"
            )
        }
        other => other.cause().to_string(),
    }
}

/// A label's number and words, or the number of what is no label.
fn label_named(number: u32) -> String {
    Label::from_number(number).map_or(number.to_string(), named)
}

/// What is wrong with a path: the first cause that applies.
fn path_cause(call: &Call) -> String {
    let steps = &call.steps;
    if steps.is_empty() {
        return "the root can only be viewed".to_string();
    }
    if steps.len() > 6 {
        return format!("the path has {} steps; six are the most", steps.len());
    }
    let cause_at = |(at, step): (usize, &Step)| {
        let before = at.checked_sub(1).map(|before| steps[before].label);
        step_cause(before, *step)
            .map(|cause| format!("step {} of the path, {}:{}: {cause}", at + 1, step.name, step.label))
    };
    steps.iter().enumerate().find_map(cause_at).unwrap_or_else(|| "the path is not valid".to_string())
}

/// What is wrong with a step behind the label before it.
fn step_cause(before: Option<u8>, step: Step) -> Option<String> {
    if step.name == 0 {
        return Some("names begin at 1".to_string());
    }
    let Some(label) = Label::from_number(step.label.into()) else {
        return Some("labels end at 31".to_string());
    };
    let before = before.and_then(|before| Label::from_number(before.into()))?;
    (!label.dominates(before))
        .then(|| format!("label {} does not dominate {}, the one before it", named(label), named(before)))
}

/// What is wrong with a value that reads.
fn value_cause(call: &Call) -> String {
    match &call.verb {
        Verb::Insert(value) | Verb::Update(value) => {
            format!("the text has {} characters; 1 to 16 are allowed", value.bytes.len())
        }
        _ => Refusal::Value.cause().to_string(),
    }
}

/// What is not there.
fn absent_cause(call: &Call) -> String {
    let (subject, path) = (label_named(call.subject), call.path_text());
    match call.verb {
        Verb::View => format!("{path} is not in view of {subject}"),
        Verb::Insert(_) => format!(
            "the parent of {path} is not in view of {subject}, and a missing step that bears another label is not made"
        ),
        Verb::Update(_) | Verb::Delete => format!("{path} is not live"),
    }
}

#[cfg(test)]
mod tests {
    use super::*;

    #[test]
    fn there_is_advice_for_each_refusal() {
        assert!(Refusal::ALL.iter().all(|refusal| !meaning(*refusal).1.is_empty()));
        assert_eq!(meaning(Refusal::Live).0, "The element is live already.");
    }
}
