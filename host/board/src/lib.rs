//! The firmware in examples/ast1030 on QEMU's AST1030: typed commands, damaged chips and power cuts.

pub mod chip;
pub mod cuts;
pub mod firmware;
pub mod hosts;
pub mod machine;
