//! Seeded random material: calls, logs and tables that reach every rule and every answer number.
//!
//! | Module | Makes |
//! |---|---|
//! | [`random`] | random numbers from a seed |
//! | [`peers`] | an own key and nodes in chosen buckets |
//! | [`datagrams`] | packets, good and damaged |
//! | [`calls`] | calls that follow a table's state |
//! | [`enodes`] | boot lists, good and damaged |
//! | [`logs`] | logs: lines of calls, damaged lines, `own` lines |
//! | [`tables`] | sound tables, also those that no run reaches |
//! | [`damage`] | bytes that make a table unsound, one kind at a time |
//! | [`coverage`] | counts of the answers and of the cases at the edges |
//! | [`reasons`] | the cases that the reason for a key shows (C-17) |

pub mod calls;
pub mod coverage;
pub mod damage;
pub mod datagrams;
pub mod enodes;
pub mod logs;
pub mod peers;
pub mod random;
pub mod reasons;
pub mod tables;
