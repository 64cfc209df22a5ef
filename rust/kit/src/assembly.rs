//! From texts to streams: descriptions are assembled, and data is read by its type; the map tells where
//! each record comes from.

pub mod assemble;
pub mod data;
pub mod map;
pub mod path;
pub mod sheet;
pub mod size;
