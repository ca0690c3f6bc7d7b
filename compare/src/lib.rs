//! GOST 28081-89 exchange diskettes as files: the rules of document 01 stated
//! once more, from its words alone, to be compared with the proved library.

pub mod account;
pub mod cover;
pub mod created;
pub mod creating;
pub mod drive;
pub mod edges;
pub mod file;
pub mod follow;
pub mod fuzzed;
pub mod label;
pub mod layout;
pub mod listing;
pub mod make;
pub mod met;
pub mod met_cylinders;
pub mod met_slots;
pub mod model;
pub mod odd;
pub mod options;
pub mod packed;
pub mod piped;
pub mod properties;
pub mod reading;
pub mod refusal;
pub mod session;
pub mod skips;
pub mod slots;
pub mod text;
pub mod uncreated;
pub mod unwritten;
pub mod volume;
pub mod walked;
pub mod writing;
pub mod written;

pub use creating::{create, delete, Placed};
pub use file::{count, find, free, Found};
pub use layout::Geometry;
pub use listing::listing;
pub use model::{answer, Answer, Call};
pub use reading::{read, salvage, Place, Reading};
pub use refusal::Refusal;
pub use volume::judge;
pub use writing::write;
