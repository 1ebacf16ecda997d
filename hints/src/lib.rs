//! Hints beside the library's refusals: where the mistake of a page is, what was expected and found there, and how
//! to mend it; of a packet, which rule is broken and by which values; and of fields that are to be cut out or put in,
//! what still reads them, or which rule the table would break.
//!
//! The verdict is the library's. Pages and tables are read here once more, in plain Rust, only to find the place
//! within a line and the words; where this reading does not come to the same number and place, only the number's
//! meaning is told.
//!
//! In reading order: `limits`; `hint` is what is answered, `faults` what is found; `characters` (2), `frame_lines`,
//! `rows`, `row_faults`, `frames`, `lengths` (3), `names`, `operators`, `trees`, `expressions`, `expression_faults`,
//! `field_lines`, `unreadable`, `fields` (5), `sizes` (6, 8, 10), `cells` (4, 7), `reads` (9) find it, `pages` puts
//! it together, `plain` writes it out. `stored` takes a table apart and `written` writes its expressions; `packets`
//! is for packets, `edits` for fields cut out and put in.

mod cells;
mod characters;
mod edits;
mod expression_faults;
mod expressions;
mod faults;
mod field_lines;
mod fields;
mod frame_lines;
mod frames;
mod hint;
mod lengths;
mod limits;
mod lines;
mod meanings;
mod names;
mod operators;
mod packets;
mod pages;
mod plain;
mod reads;
mod row_faults;
mod rows;
mod shown;
mod sizes;
mod stored;
mod trees;
mod unreadable;
mod written;

pub use edits::{cut_hint, put_hint, EditHint};
pub use hint::{Also, Hint, Verdict, ALSO_MOST};
pub use packets::{fields_before, packet_hint, plain_packet, PacketHint};
pub use pages::{length_hint, page_hint};
pub use plain::plain;
pub use shown::shown;
