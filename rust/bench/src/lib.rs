//! What the benchmark times the verified library against, and on which plans and calls; and how many bytes saves have.

pub mod baseline;
pub mod folding;
pub mod journals;
pub mod lent;
pub mod machine;
pub mod notes;
pub mod plans;
pub mod race;
pub mod sizes;
pub mod timed;
