//! What the calls are made on, drawn at random: blocks and arrivals, campaigns, tables, records and shelves, streams for the
//! listing, and damage to each of them. Every draw comes from the case's own generator, `Random`, so a case can be run again.
//!
//! Drawing depends on the model alone. What is drawn while calls are made, since it goes by what they left, is in
//! `comparing::sites`.

pub mod arrivals;
pub mod campaign;
pub mod clashes;
pub mod cuts;
pub mod draft;
pub mod feed;
pub mod join_faults;
pub mod pairs;
pub mod pool;
pub mod random;
pub mod record_contents;
pub mod shelf_damage;
pub mod shelves;
pub mod streams;
pub mod table_damage;
pub mod tables;
pub mod tables_to_retire;
pub mod tables_with_forks;
pub mod tables_with_retirings;
pub mod target_places;
