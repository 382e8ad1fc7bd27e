//! Measures the library beside other readers, in one run and as ratios: a time alone would say more of
//! the processor than of the code. `bench/run` runs it all but `before`, which has a script of its own.
//!
//! The program `checksum` links an archive that must not meet the library's in one program, so nothing
//! in here may link the library.

pub mod agreed;
pub mod grid;
pub mod pulls;
pub mod run_reader;
pub mod system;
pub mod table;
