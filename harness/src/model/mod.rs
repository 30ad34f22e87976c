//! What the harness works out by itself, from the documents' words and apart from the library: what is due where the Rust has no answer.

pub mod chains;
pub mod counts;
pub mod pool;
pub mod prepare;
pub mod products;
pub mod proof_size;
pub mod rules;
pub mod threshold;
pub mod ticket;
