//! The calls that are compared, and who carries them out.
use dossier::raw;

/// Which call.
#[derive(Clone, Copy, PartialEq, Eq, Debug)]
pub enum Name {
    View,
    Insert,
    Update,
    Delete,
    ViewXml,
    Grade,
    InsertXml,
    Migrate,
}

/// A call with its inputs; the path of a grade is its base, that of an XML intake its parent. The migration takes none.
#[derive(Clone, Debug)]
pub struct Call {
    pub name: Name,
    pub subject: u32,
    pub path: Vec<u8>,
    pub kind: u32,
    pub value: Vec<u8>,
    pub top: Vec<u8>,
    pub n: u32,
    pub text: Vec<u8>,
    pub output: usize,
}

/// What a call answers: its number and its count, a grade's number, step and remainder, or a migration's number and mask; the
/// others are 0.
#[derive(Clone, Copy, Default, PartialEq, Eq, Debug)]
pub struct Answer {
    pub number: u32,
    pub count: u64,
    pub step: i64,
    pub remainder: u32,
    pub mask: u32,
}

/// Carries a call out on a lent store and a lent output.
pub type Side = fn(&Call, &mut [u8], &mut [u8]) -> Answer;

/// The Rust program.
pub fn reference(call: &Call, store: &mut [u8], output: &mut [u8]) -> Answer {
    let Call { name, subject, path, kind, value, top, n, text, .. } = call;
    let reference::Answer { number, count } = match name {
        Name::View => reference::view(store, *subject, path, output),
        Name::Insert => reference::insert(store, *subject, path, *kind, value),
        Name::Update => reference::update(store, *subject, path, *kind, value),
        Name::Delete => reference::delete(store, *subject, path),
        Name::ViewXml => reference::view_xml(store, *subject, path, output),
        Name::InsertXml => reference::insert_xml(store, *subject, path, text),
        Name::Grade => {
            let reference::Grade { number, step, remainder } = reference::grade(store, *subject, path, top, *n);
            return Answer { number, step, remainder, ..Answer::default() };
        }
        Name::Migrate => {
            let reference::Migration { number, mask } = reference::migrate(store);
            return Answer { number, mask, ..Answer::default() };
        }
    };
    Answer { number, count, ..Answer::default() }
}

/// The product, through the calls on bytes of the package in hosts/rust.
pub fn product(call: &Call, store: &mut [u8], output: &mut [u8]) -> Answer {
    let Call { name, subject, path, kind, value, top, n, text, .. } = call;
    let dossier::Answer { number, count } = match name {
        Name::View => raw::view(store, *subject, path, output),
        Name::Insert => raw::insert(store, *subject, path, *kind, value),
        Name::Update => raw::update(store, *subject, path, *kind, value),
        Name::Delete => raw::delete(store, *subject, path),
        Name::ViewXml => raw::view_xml(store, *subject, path, output),
        Name::InsertXml => raw::insert_xml(store, *subject, path, text),
        Name::Grade => {
            let dossier::GradeAnswer { number, step, remainder } = raw::grade(store, *subject, path, top, *n);
            return Answer { number, step, remainder, ..Answer::default() };
        }
        Name::Migrate => {
            let dossier::MigrationAnswer { number, mask } = raw::migrate(store);
            return Answer { number, mask, ..Answer::default() };
        }
    };
    Answer { number, count, ..Answer::default() }
}
