//! dossier, the labelled dossier store of the project Yaztobel, as a safe package over the archive `libdossier_c.a`
//! (`tools/build --archive dossier_c`). `docs/GUIDE.md` is where to begin.
//!
//! A [`Store`] is 41,088 bytes, its own or borrowed: 32 partitions, one for each [`Label`]. Subjects view and change one tree of
//! elements, each under a label of their own; what a subject sees and is told owes nothing to subjects that he does not
//! dominate. The calls themselves are proved; this package only passes bytes and numbers on and reads the answers.
//!
//! The typed calls are methods of [`Store`]. Below them, [`raw`] has the calls on bytes of any length and on numbers of 32
//! bits: no number is narrowed on its way, so that a subject of 287 is refused by 2, a kind of 256 by 5 and a grade in 257 sizes
//! by 11.
//!
//! [`mod@file`] keeps a store in a file, with a lock and a save that a crash leaves whole.
//!
//! The borrow checker keeps what the calls ask of a host: a buffer that is written does not overlap another one, and nobody else
//! writes a lent buffer until the call returns.
//!
//! # Example
//!
//! A subject of label 0 inserts a style and a subject of label 16 a measure under it; 0 deletes the style, and 16 still sees it,
//! marked as removed, above his measure. `examples/example.rs` goes on from there.
//!
//! ```
//! use dossier::{Error, Grade, Label, Level, Path, Refusal, Store, Value};
//!
//! # fn main() -> Result<(), Error> {
//! let (open, house) = (Label::new(Level::Open, &[]), Label::new(Level::House, &[]));
//! let style = Path::root().child(10, open);
//! let sleeve = style.child(20, house);
//!
//! let mut store = Store::empty();
//! store.insert(open, &style, Value::Group)?;
//! store.insert(house, &sleeve, Value::Measure(-150))?;
//! assert_eq!(store.delete(open, &style)?, 1);
//!
//! // What 16 sees, element by element.
//! let mut seen = Vec::new();
//! for line in &store.view(house, &Path::root())? {
//!     let line = line?;
//!     seen.push((line.path.to_string(), line.value().map(|value| format!("{value:?}"))));
//! }
//! assert_eq!(seen, [("10:0".into(), None), ("10:0/20:16".into(), Some("Measure(-150)".into()))]);
//!
//! // The measure as XML, and a style taken in as XML, all of it at once: a group with a measure inside it.
//! let element = r#"<e20 label="16" preserve="PRESENT" kind="M">-150</e20>"#;
//! assert_eq!(store.view_xml(house, &sleeve)?, format!(r#"<dossier subject="16">{element}</dossier>"#));
//! let sent = format!(r#"<e30 label="16" preserve="PRESENT" kind="G">{element}</e30>"#);
//! assert_eq!(store.insert_xml(house, &style, &sent)?, 2);
//!
//! // A measure that comes before its piece: the missing group is made. Then the even grade in three sizes: 1000 is 3 × 333 + 1.
//! let wider = Path::from([(40, house), (1, house)]);
//! assert_eq!(store.insert(house, &wider, Value::Measure(850))?, 1);
//! assert_eq!(store.grade(house, &sleeve, &wider, 3)?, Grade { step: 333, remainder: 1 });
//!
//! // A refusal has a number and words, and changes nothing.
//! let refused = store.delete(open, &style);
//! assert_eq!(refused, Err(Refusal::Absent.into()));
//! assert_eq!((Refusal::Absent.number(), Refusal::Live.to_string()), (7, "refused by 8: the element is live already".into()));
//! # Ok(())
//! # }
//! ```
//!
//! A store that is kept in a file, with the command's lock and save:
//!
//! ```no_run
//! # use dossier::{Label, Path, Store, Value};
//! # fn main() -> Result<(), Box<dyn std::error::Error>> {
//! let mut store = Store::open("shirts")?;
//! store.insert("house".parse()?, &"10:0/20:house".parse()?, Value::Measure(7200))?;
//! store.save()?;
//! # Ok(())
//! # }
//! ```
#![deny(missing_docs)]

#[cfg(not(target_pointer_width = "64"))]
compile_error!("the dossier calls take lengths of 64 bits");

mod access_list;
mod answer;
pub mod file;
mod file_error;
mod label;
mod listing;
mod path;
pub mod raw;
mod store;
mod value;

pub use answer::{Answer, Error, Grade, GradeAnswer, Labels, Mask, MigrationAnswer, Refusal};
pub use file::{StoreFile, Wait};
pub use file_error::{FileCause, FileError};
pub use label::{Compartment, Label, Level, NoLabel};
pub use listing::{Line, Lines, Mark, View};
pub use path::{NoPath, Path, Steps};
pub use store::Store;
pub use value::{Kind, Value};

/// The version of this package; `docs/DECISIONS.md` says what changes it.
pub const VERSION: &str = env!("CARGO_PKG_VERSION");

/// How many bytes a store has.
pub const STORE_BYTES: usize = 41_088;

/// How many bytes a partition has; the one of label n starts at n times this.
pub const PARTITION_BYTES: usize = 1_284;

/// How many bytes a step of a path has.
pub const STEP_BYTES: usize = 3;

/// No valid path has more bytes: six steps.
pub const PATH_BYTES_MAX: usize = 18;

/// How many bytes a measure has.
pub const MEASURE_BYTES: usize = 4;

/// No text that is allowed has more bytes.
pub const TEXT_BYTES_MAX: usize = 16;

/// No listing has more bytes: at most 1,024 lines of live elements, 5,120 of removed ones and the first. An output of this
/// length is never refused by 10.
pub const LISTING_BYTES_MAX: usize = 119_821;

/// No view as XML has more bytes: at most 1,024 live elements, 5,120 removed ones and the dossier tag. An output of this length
/// is never refused by 10.
pub const XML_BYTES_MAX: usize = 426_016;
