//! Document 01, with the requests of document 02 that have landed (Jobs 1 to 7 and 11, of which 2 and 11 change no answer),
//! implemented once more from their words alone, to be compared with the proved library.

mod bytes;
pub mod explain;
pub mod finding;
pub mod model;
pub mod pattern;
pub mod planner;
pub mod random;
pub mod tableau;
pub mod typed;
