//! The library's own WebAssembly module, by itself in node.

use cross::target::WASM32;
use cross::tools::{archives, output, repository};
use std::process::Command;

#[test]
fn the_module_imports_nothing_and_runs() {
    archives();
    let script = repository("host/cross/program/library.mjs");
    let printed = output(Command::new("node").arg(script).arg(WASM32.folder().join("grommetide.wasm")));
    assert_eq!(printed, "rows a to e\n");
}
