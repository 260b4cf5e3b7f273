//! The library on each target, under emulation. Where an emulator is missing a test fails; `.ci/packages` installs them.

mod stack;
mod targets;
mod wasm;
mod wrong;
