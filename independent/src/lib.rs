//! An independent planner for boards with two kinds of core, with its own text
//! format, checker, generator of inputs and tick handler. It exists to be
//! compared, byte by byte, with another implementation of the same rules.

pub mod bench;
pub mod c_entry;
pub mod check;
pub mod command;
pub mod compare;
pub mod compare_command;
pub mod compare_lines;
pub mod duality;
pub mod examine;
pub mod facts;
pub mod family;
pub mod frames;
pub mod gen;
pub mod handler;
pub mod planner;
pub mod text;
pub mod window;
