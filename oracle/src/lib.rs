//! The oracle of the calls: the Rust that is ported, run on the commands of docs/TEXT-FORM.md, and what is needed to hold the
//! program `calls` against it.

pub mod access;
pub mod arguments;
pub mod call;
pub mod list;
pub mod machine;
pub mod memory;
pub mod program;
pub mod text;
pub mod trace;
