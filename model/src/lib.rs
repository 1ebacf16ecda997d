//! A model of document 01 and of requests of document 02, written from them and
//! from the readings of their open points in `docs/DECISIONS.md`, not from the library: it reads description texts, in
//! pieces too, writes, checks, converts and edits field tables, reads packets by a table and lists them. Every function
//! answers for every input.
//!
//! In reading order: `names`, `operators`, `trees`, `expressions`, `descriptions`, `naming`, `widths`, `editions`,
//! `rules` say what a description is; `lines`, `rows`, `frames`, `field_lines`, `matching`, `texts`, `pieces` read a
//! text; `references`, `stored`, `tables`, `conversion` hold the stored form; `renumbering`, `editing` cut fields out
//! of a table and put them in; `evaluation`, `reading`, `listing`, `lookups` use a table. `generate` makes random
//! cases, and `protocol` answers the requests of the oracle.

mod conversion;
mod descriptions;
mod editing;
mod editions;
mod evaluation;
mod expressions;
mod field_lines;
mod frames;
pub mod generate;
mod lines;
mod listing;
mod lookups;
mod matching;
mod names;
mod naming;
mod operators;
mod pieces;
pub mod protocol;
mod reading;
mod references;
mod refusals;
mod renumbering;
mod rows;
mod rules;
mod stored;
mod tables;
mod texts;
mod trees;
mod widths;

pub use conversion::convert_table;
pub use editing::{cut_fields, put_fields};
pub use frames::Limits;
pub use listing::list_packet;
pub use lookups::{count_fields, count_readers, field_kind, field_label, field_short, find_field};
pub use pieces::write_pieces;
pub use reading::{field_bytes, read_packet, read_partly, Partly, Reading};
pub use refusals::Refusal;
pub use tables::check_table;
pub use texts::{write_table, write_table_by};
