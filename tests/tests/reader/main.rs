//! The reader that is fed one block at a time. That it gives what the whole-image pull gives, and asks for what the
//! reference's reader asks for, is looked at wherever pulls are: `calls::pulls` has it beside each.

mod asked;
mod counts;
mod far;
mod forged;
mod lengths;
mod other_bytes;
mod questions;
mod repeated;
mod result;
mod states;
