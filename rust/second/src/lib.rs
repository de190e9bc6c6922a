//! A second reading of document 01, with requests W2, W3 and W12 of document 02:
//! IFF 4.2.4 deliveries at the connections desk.
//!
//! A delivery of eleven files is loaded into a [`Store`] or refused with a
//! number and a place. A store takes amendments of single services and answers
//! the desk's questions, changes also a sheet at a time. [`encode()`] shows a
//! store as the eleven tables of 64-bit words that the desk's main program keeps,
//! so that the two programs can be compared word by word.

pub mod amend;
pub mod card;
mod columns;
pub mod encode;
pub mod files;
mod groups;
mod hash;
mod legs;
mod lines;
pub mod load;
pub mod questions;
pub mod refusals;
mod rows;
pub mod sheet;
pub mod sound;
pub mod store;
mod timetbls;
mod values;

pub use amend::amend;
pub use card::rank;
pub use encode::{encode, rooms_of, zeroes};
pub use files::File;
pub use lines::count as count_lines;
pub use load::load;
pub use questions::{change, lines_now, name, running_day, stop_time};
pub use refusals::{Fault, Refusal};
pub use sheet::sheet;
pub use sound::open;
pub use store::{Answer, Store};
pub use values::{Clock, Day, LocalMinutes, ReferenceMinutes};
