// Evidence from outside: document 01 written twice more in plain Rust, quick Rust to be timed beside, and the proved library's C interface.
// Nothing here was taken from the library's sources; documents 01 and 02 alone were followed.

pub mod brute;
pub mod make;
pub mod plain;
pub mod quick;
pub mod random;
pub mod work;

#[cfg(feature = "library")]
pub mod library;

#[cfg(feature = "standin")]
pub mod standin;
