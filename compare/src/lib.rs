//! Holds the desk program `rules` and the linked library to the checker
//! written apart, over files and queries made from a seed.

pub mod areas;
pub mod arguments;
pub mod block;
pub mod bounds;
pub mod calls;
pub mod case;
pub mod ceilings;
pub mod desk;
pub mod endings;
pub mod faults;
pub mod foreign;
pub mod grid;
pub mod idle;
pub mod input;
pub mod library;
pub mod list;
pub mod list_faults;
pub mod list_trips;
pub mod longer;
pub mod overlaps;
pub mod pair_lists;
pub mod play;
pub mod play_faults;
pub mod service;
pub mod settings;
pub mod sheets;
pub mod shuffle;
pub mod sizes;
pub mod tally;
pub mod trip;
pub mod variables;
pub mod witness;
pub mod work;
pub mod zoned;
