//! What the tool says to a designer: each message with its exact text, and the exit status with it.

mod by_map;
mod cases;
mod description;
mod desk;
mod dump_by_map;
mod files;
mod limits;
mod lint;
mod names;
mod positions;
mod productions;
mod size;
mod streams;
mod typing;
mod usage;
mod value;
mod variant_streams;
mod variants;
mod walk;
