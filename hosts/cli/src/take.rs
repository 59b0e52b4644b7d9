//! `dossier take`: a style taken in.

use dossier::raw;

use crate::arguments::Words;
use crate::failure::{Done, Failure};
use crate::files;
use crate::refusals;
use crate::shown::counted;

/// Takes in the style of a file below a parent and saves the store.
pub fn take(words: &Words) -> Result<Done, Failure> {
    let (subject, parent) = (words.label("--as")?, words.path(1)?);
    let sent = files::read_all(words.word(2).unwrap_or_default())?;
    let mut opened = files::open_store(words)?;
    let bytes = opened.as_mut_bytes();
    let answer = raw::insert_xml(bytes, subject.number(), parent.as_bytes(), style_of(&sent));
    let count = answer
        .outcome()
        .map_err(|error| Failure::call(error, |refusal| refusals::of_take(refusal, subject, &parent)))?;
    files::save(&mut opened)?;
    files::print_saved(format!("{} taken in below {parent}\n", counted(count as usize, "element")).as_bytes())
}

/// The style in a file: without a last line end, and without the dossier tag, if it stands in one as a view writes it.
fn style_of(sent: &[u8]) -> &[u8] {
    let sent = sent.strip_suffix(b"\n").unwrap_or(sent);
    let sent = sent.strip_suffix(b"\r").unwrap_or(sent);
    let inside = sent.strip_prefix(b"<dossier subject=\"").and_then(|rest| rest.strip_suffix(b"</dossier>"));
    let behind = |rest: &[u8]| rest.windows(2).position(|two| two == b"\">").filter(|digits| (1..=2).contains(digits));
    match inside.and_then(|rest| behind(rest).map(|digits| &rest[digits + 2..])) {
        Some(style) => style,
        None => sent,
    }
}

#[cfg(test)]
mod tests {
    use super::*;

    #[test]
    fn the_outer_tag_and_the_line_end_are_left_off() {
        for (sent, style) in [
            ("<e1>x</e1>", "<e1>x</e1>"),
            ("<e1>x</e1>\n", "<e1>x</e1>"),
            ("<e1>x</e1>\r\n", "<e1>x</e1>"),
            ("<e1>x</e1>\n\n", "<e1>x</e1>\n"),
            ("<dossier subject=\"16\"><e1>x</e1></dossier>\n", "<e1>x</e1>"),
            ("<dossier subject=\"0\"></dossier>", ""),
            ("<dossier subject=\"160\"><e1></e1></dossier>", "<dossier subject=\"160\"><e1></e1></dossier>"),
            ("<dossier><e1>x</e1></dossier>", "<dossier><e1>x</e1></dossier>"),
            ("", ""),
        ] {
            assert_eq!(style_of(sent.as_bytes()), style.as_bytes(), "{sent}");
        }
    }
}
