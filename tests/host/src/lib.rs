//! What the programs around the engine share: its calls, an independent
//! implementation, random and damaged inputs, their settings, and the counting of
//! comparisons.

pub mod books;
pub mod both;
pub mod cards;
pub mod changes;
pub mod class;
pub mod columns;
pub mod damaged;
pub mod diffusion;
pub mod engine;
pub mod hurdle;
pub mod inverses;
pub mod lineage;
pub mod long;
pub mod random;
pub mod settings;
pub mod sheets;
pub mod taa1;
pub mod tally;

/// The calls of the independent implementation, and its answers by the engine's names.
pub mod other {
    pub use crate::books::{check_plain, open_book, seal_book, BookAnswer, CountedAnswer};
    pub use crate::cards::*;
    pub use crate::class::ta12_class;
    pub use crate::columns::*;
    pub use crate::diffusion::{diffusion, Diffusion as Tally};
    pub use crate::inverses::*;
    pub use crate::lineage::lineage;
    pub use crate::taa1::{UnsealedKey as Unsealed, *};
}
