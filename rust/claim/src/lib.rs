//! Document 01's demand 3, tested: the claim of its section 'Lists, cuts and the uncut run', over
//! random lists of recoveries, runs, cuts and refused calls, for either kind of chip (document 02,
//! the accepted calls of a list are all for one page length. The engine under test is handed
//! in (`Engine`). `Watch` makes the calls, keeps the tally, and holds every answer, chip and state
//! to the section's sentences and to the uncut run. `list` draws a list from a seed, `plans` its
//! plan, `calls` the refused calls. A list may go over two days (`Days`), the sets until Q-3 and
//! those since, and in lists for a byte chip this may be folded (`folds`, of Q-6), also from the
//! marks until Q-8 to those since (`Marks`); and notes may be put on it (`notes`, of Q-14).
//! `altered` has engines with one error each, on which the watch has to fail.

pub mod altered;
pub mod calls;
pub mod days;
pub mod engine;
pub mod folds;
pub mod list;
pub mod marks;
pub mod met;
mod misfolds;
pub mod notes;
pub mod plans;
pub mod record;
pub mod rng;
pub mod sentence;
mod step;
pub mod watch;

pub use days::Days;
pub use engine::{Engine, Lent, LentFold, LentPlace, OfKind, Ran, Reference};
pub use list::{watch_list, watch_lists, Sort};
pub use marks::Marks;
pub use met::Met;
pub use notes::Notes;
pub use sentence::{Sentence, Violation};
pub use watch::{Start, Watch};
