//! A second implementation of the plan judge, written from its documents
//! alone, to be laid beside the proved one call by call.

pub mod blocks;
pub mod bytes;
pub mod compare;
pub mod desk;
pub mod draw;
pub mod faults;
pub mod floats;
pub mod gain_faults;
pub mod generate;
pub mod ground;
pub mod lamp_faults;
pub mod leftover_faults;
pub mod logic;
pub mod model_faults;
pub mod reason_faults;
mod strays;
pub mod sum_faults;
pub mod tally;
pub mod text;
pub mod timing;
