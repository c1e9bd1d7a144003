//! What makes input for the programs: cases, random scripts, streams and the demonstration.

pub mod cases;
pub mod catalogues;
pub mod chance;
pub mod chase_script;
pub mod chases;
pub mod clerk_script;
pub mod clerks;
pub mod demo;
pub mod headers;
pub mod loads;
pub mod make;
pub mod make_catalogue;
pub mod make_header;
pub mod random;
pub mod random_chase;
pub mod random_clerk;
pub mod raw;
pub mod script;
pub mod sender;
pub mod stream;
