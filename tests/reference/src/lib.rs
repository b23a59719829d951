// The reference of the road-noise book: the rules worked a second time, in plain Rust.
// It exists to be compared with the book itself, so nothing here is shared with it.

pub mod aims;
pub mod book;
pub mod chance;
pub mod compare;
pub mod course;
pub mod cuts;
pub mod daily;
mod exchanges;
pub mod faint;
pub mod fields;
pub mod fixed;
pub mod fixed_exchanges;
mod inconsistent;
pub mod inputs;
pub mod jobs;
pub mod level;
pub mod limits;
pub mod listing;
pub mod longhand;
pub mod pieces;
#[cfg(test)]
mod power;
pub mod probe;
pub mod record;
pub mod road;
pub mod roots;
pub mod sheets;
pub mod store;
pub mod stores;
pub mod town;
pub mod viewer;
pub mod views;
pub mod wall;
pub mod writing;
