//! A second version of the plan engine. It is written from documents 01 and 02 alone, never from the
//! verified library, so that an error would have to be made twice to go unseen. It is meant to be
//! read beside the documents: plain before fast.

pub mod analysis;
pub mod check;
pub mod folding;
pub mod journal;
pub mod layout;
pub mod listing;
pub mod machine;
pub mod notes;
pub mod program;
mod recovery;
pub mod refusal;
pub mod uncut;

pub use analysis::{analyse, analyse_until, Analysis, Set};
pub use check::{check, Checked};
pub use folding::fold;
pub use listing::listing;
pub use machine::Machine;
pub use notes::spent;
