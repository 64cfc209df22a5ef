//! Streams as they are found: blocks, records, what each record says, and checks of the old kind.

pub mod checks;
pub mod dump;
pub mod heads;
pub mod layout;
pub mod record;
pub mod repack;
pub mod thing;
