//! What the receiver must do, and what its programs must print.

pub mod bits;
pub mod catalogue;
pub mod chase;
pub mod clerk;
pub mod crc;
pub mod events;
pub mod files;
pub mod frame;
pub mod hunt;
pub mod noise;
pub mod packet;
pub mod printout;
pub mod program;
pub mod records;
pub mod sound;
pub mod station;
pub mod stream;
pub mod transport;
pub mod trial;
pub mod vectors;
pub mod whole;
pub mod zone;
