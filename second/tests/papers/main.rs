//! The second program held to the values that the papers print, and to the paper's own cases.

mod catalogue;
mod clerks;
mod example;
mod facts;
mod generators;
mod leaves;
mod let_go;
mod memory;
mod records;
mod refusals;
mod rubbish;
mod scripts;
mod sha256;
mod soundness;
mod station;
mod stream;
