//! A plain implementation of document 01, with the requests of document 02
//! that have landed: the machine record, its calls, the regions text, the
//! memory report and the replay of records. It uses no tricks on purpose: it
//! is here to be compared, call by call, with the proved library.

pub mod areas;
pub mod calls;
pub mod day;
pub mod devices;
pub mod machine;
pub mod pages;
pub mod regions;
pub mod replay;
pub mod report;
pub mod sample;
pub mod searches;

pub use areas::Request;
pub use calls::{Call, State};
pub use machine::{Answer, Area, Machine, Tables};
