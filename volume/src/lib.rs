//! Tests in volume and the benchmark of the compiled Lanecockle, libdesk.a,
//! against the second implementation.

pub mod bench;
pub mod cases;
pub mod clock;
pub mod dice;
pub mod ffi;
pub mod guard;
pub mod lane;
pub mod lent;
pub mod maker;
pub mod properties;
pub mod table;
pub mod trial;
