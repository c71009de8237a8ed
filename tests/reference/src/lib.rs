//! Every call of the library again, written from the definitions alone and as plainly as they are.
//!
//! The paper that fixes terms, format and numbers is called 01. Answers have the library's types, so that they can be compared; the
//! library itself is not called here. A work table's contents mean nothing, so only its length is handed over.
mod answers;
mod common;
mod cores;
mod equal;
mod file;
mod groups;
mod harmonic;
mod index;
mod journal;
mod layers;
mod report;
mod weights;

pub use answers::{first_of, Refusal};
pub use common::common;
pub use cores::{core, equal_level, finding, level, level_across, work_length};
pub use equal::{equal_findings, Found};
pub use file::{check, file_length, order, read, read_old, write, LINKS, MEMBERS};
pub use groups::count;
pub use harmonic::harmonic;
pub use index::{index, row, row_refusal};
pub use journal::{entries, journal, Month, DUE, GIVEN, JOURNAL_OUT, JOURNAL_WORK};
pub use layers::layers;
pub use report::{convert, report, INPUT, OLD_INPUT};
pub use weights::{weight, WEIGHTS};
