//! A second implementation of the call program, by documents 01 and 02.

pub mod at_end;
pub mod callgrind;
pub mod cases;
pub mod compare;
pub mod coverage;
pub mod damage;
pub mod explain;
pub mod figures;
pub mod generate;
pub mod growth;
pub mod image;
pub mod inputs;
pub mod lines;
pub mod modes;
pub mod monitor;
pub mod objects;
pub mod random;
pub mod short_list;
pub mod table;
pub mod workload;
