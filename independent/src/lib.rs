//! An independent reading of document 01 with requests 1, 2, 3, 5, 6, 7, 9 and 12 of document 02:
//! the staff card loader.

pub mod bytes;
pub mod card;
pub mod code;
pub mod contents;
pub mod depths;
pub mod generate;
pub mod handler_counts;
pub mod handler_faults;
pub mod handlers;
pub mod import_counts;
mod import_shapes;
pub mod int_counts;
mod int_load_counts;
pub mod inventory;
pub mod inventory_counts;
pub mod ledger;
pub mod limit_counts;
pub mod limit_edges;
pub mod limits;
pub mod load_questions;
pub mod loader;
mod misread_handlers;
pub mod misread_imports;
pub mod misread_int;
pub mod misread_inventory;
mod misread_kinds;
pub mod misread_limits;
pub mod misread_search;
pub mod misreadings;
pub mod operations;
pub mod own_domain;
pub mod package;
pub mod policy;
pub mod questions;
pub mod search;
pub mod search_counts;
mod search_shapes;
pub mod store;
pub mod without_int;

/// What a call says: the number, and the figure that goes with it.
#[derive(Clone, Copy, Debug, PartialEq, Eq)]
pub struct Answer {
    pub number: u8,
    /// The depth of an accepted load's deepest own class, or 1 for a query's yes; else 0.
    pub figure: u8,
}

impl Answer {
    /// Done with a figure, or the number of the first no.
    pub fn of(judged: Result<u8, u8>) -> Self {
        match judged {
            Ok(figure) => Answer { number: 0, figure },
            Err(number) => Answer { number, figure: 0 },
        }
    }

    pub fn encoded(self) -> u32 {
        u32::from(self.number) + 256 * u32::from(self.figure)
    }
}
