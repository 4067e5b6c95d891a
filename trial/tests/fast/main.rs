//! Tests of the fast implementation: the samples, and the same findings as the oracle's.

mod against_oracle;
mod samples;
mod typing;
