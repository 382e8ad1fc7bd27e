//! The published tools and outside readers.

pub mod fsck;
pub mod outside;
pub mod published;
