//! Judges, an orderer and a typist, with a fault planted in them.

pub mod area;
pub mod completing;
pub mod edges;
pub mod either;
pub mod fresh;
pub mod model;
pub mod names;
pub mod ordering;
pub mod rows;
pub mod slots;
pub mod tableau;
pub mod typing;
