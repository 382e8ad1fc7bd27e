//! Directory blocks, as the library's tests have them.

#[path = "../../../src/cards/dentry.rs"]
pub mod dentry;
#[path = "../../../src/cards/dentry_block.rs"]
pub mod dentry_block;
#[path = "../../../src/cards/layout.rs"]
pub mod layout;
#[path = "../../../src/cards/maps.rs"]
pub mod maps;
#[path = "../../../src/cards/names.rs"]
pub mod names;
