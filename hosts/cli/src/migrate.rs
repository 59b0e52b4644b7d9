//! `dossier migrate`: a store of before brought into the order of now.

use dossier::Label;

use crate::arguments::Words;
use crate::failure::{Done, Failure};
use crate::files;
use crate::owner::{State, list, partition, state};
use crate::refusals;

/// Migrates the store, saves it, and says what was done and what the mask means.
pub fn migrate(words: &Words) -> Result<Done, Failure> {
    let mut opened = files::open_store(words)?;
    let before: Vec<Vec<u8>> = Label::all().map(|label| partition(&opened, label).to_vec()).collect();
    let mask = opened.migrate().map_err(|error| Failure::call(error, refusals::of_any))?;
    let moved: Vec<Label> =
        Label::all().filter(|label| partition(&opened, *label) != before[label.number() as usize]).collect();
    let (mut served, mut broken) = (Vec::new(), Vec::new());
    for label in mask {
        let kept = state(&opened, label).map_err(|error| Failure::call(error, refusals::of_any))?;
        if matches!(kept, State::WellFormed(_)) { served.push(label) } else { broken.push(label) }
    }
    files::save(&mut opened)?;
    files::print_saved(told(mask.bits(), &moved, &served, &broken).as_bytes())?;
    Ok(if broken.is_empty() { Done::Well } else { Done::Found })
}

/// What was done, in words.
fn told(mask: u32, moved: &[Label], served: &[Label], broken: &[Label]) -> String {
    if moved.is_empty() && broken.is_empty() {
        let why = match served {
            [] => "no label holds versions whose order has changed".to_string(),
            _ => format!(
                "the partitions of these labels are in the order of now already and serve all calls: {}",
                list(served)
            ),
        };
        return format!(
            "nothing to do: {why}\nthe mask is {mask}: a bit for each partition that is not in the order of before\n"
        );
    }
    let mut text = format!("brought into the order of now, the partitions of: {}\n", list(moved));
    if !served.is_empty() {
        text += &format!(
            "left as they were, since they are in the order of now already and serve all calls: {}\n",
            list(served)
        );
    }
    if !broken.is_empty() {
        text += &format!(
            "left as they were, since they are broken, well formed in neither order: {}\n\
             whoever dominates one of these is refused by 3, as before; see dossier check\n",
            list(broken)
        );
    }
    text + &format!("the mask is {mask}: a bit for each partition that was not in the order of before and was left\n")
}
