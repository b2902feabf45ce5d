//! BBCode forum posts to Carve text, by a static library every function of which is proved to meet its contract.
//!
//! ```
//! let mut converter = carve::Converter::new();
//! let converted = converter.convert("[list][*]Séance [i]tonight[/i][*]tea[/list]".as_bytes())?;
//! assert_eq!(converted.text, "\n\n- Séance /tonight/\n- tea\n\n");
//! # Ok::<(), carve::Refusal>(())
//! ```
//!
//! [`Converter`] owns its memory and is what most callers want. [`Lent`] has the same operations over memory that the caller lends. Every byte of a
//! converted text carries its origin, and what a caption does not say any more is listed as a [`Loss`].
//!
//! `rust/library` writes the archive that this crate links, target/staticlib/libcarve.a of the repository.

#![warn(missing_docs)]

mod converter;
mod lent;
mod raw;
mod refusal;

pub use converter::{day, Converted, Converter, Loss, Marked};
pub use lent::{numbers_size, spans_size, work_size, Lent, Operation, MAX_OUT, MAX_TEXT};
pub use raw::Record;
pub use refusal::Refusal;
