//! Document 01 as a Rust program: the store's bytes, the four calls, the printed view and the call runner; and of
//! document 02 the view as XML, the update that keeps what is below, the even grade, XML intake, the insert that makes
//! the missing groups, and the order with the highest level first and the migration to it. It is written from the documents
//! alone and shares nothing with the product. Beside it stands what the comparisons have in common: random numbers, random
//! scripts, and how a script is given to another program and its outcome compared.

pub mod calls;
mod intake;
pub mod label;
mod listing;
pub mod migration;
pub mod partition;
pub mod path;
pub mod programs;
pub mod random;
pub mod script;
pub mod scripts;
pub mod value;
mod xml;

pub use calls::{Answer, Grade, delete, grade, insert, insert_xml, update, view, view_xml};
pub use migration::{Migration, migrate};
pub use partition::STORE;
