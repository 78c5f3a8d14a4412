//! The loader's static library beside the independent reader: compared and timed.

#![deny(unsafe_code)]

mod below_ladder;
pub mod counts;
pub mod fixed;
pub mod frames;
pub mod guarded;
pub mod hostile;
mod hostile_chains;
mod hostile_handlers;
mod hostile_imports;
mod hostile_kinds;
mod hostile_limits;
mod hostile_lists;
mod hostile_searches;
mod hostile_tables;
pub mod instructions;
pub mod inventories;
pub mod library;
pub mod ordinary;
pub mod ordinary_handlers;
pub mod ordinary_imports;
pub mod ordinary_kinds;
pub mod ordinary_limits;
pub mod ordinary_searches;
pub mod process;
pub mod report;
mod search_ladders;
mod seeded;
pub mod stack;
pub mod tables;
pub mod timing;
pub mod workloads;
