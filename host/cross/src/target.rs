//! The targets that are tested, and what each needs.

use crate::tools::repository;
use std::path::PathBuf;

/// What a program runs in.
#[derive(Clone, Copy, PartialEq, Eq)]
pub enum Machine {
    /// Linux, by itself.
    Own,
    /// Linux, in this program of qemu-user.
    Linux(&'static str),
    /// No system: this program of qemu, the board's words, the board's linker script with words for it.
    Board { qemu: &'static str, board: &'static [&'static str], script: &'static [&'static str] },
    /// WebAssembly, in node.
    Node,
}

pub struct Target {
    pub name: &'static str,
    /// As in `make TARGET=..`; none for x86-64, whose archive is the kit's own.
    pub triple: Option<&'static str>,
    /// Words for clang with which the program is compiled. A trap under Linux ends it, so there the stream is not held back.
    pub words: &'static [&'static str],
    /// The longest image that the program has memory for, and the longest beside a painted stack.
    pub images: u32,
    pub stack_images: u32,
    pub machine: Machine,
    /// What the archive leaves undefined: these and no others.
    pub undefined: &'static [&'static str],
}

const BYTES: &[&str] = &["memcpy", "memset"];
const LONGEST: u32 = 65_536;
const CORTEX_M: &[&str] = &["cortex-m.ld", "--defsym=MEMORY=0x400000"];
/// The micro:bit's 16 KB of memory.
const MICROBIT: &[&str] = &["cortex-m.ld", "--defsym=MEMORY=16384"];
const THUMB_2: &[&str] = &[
    "__aeabi_memclr",
    "__aeabi_memclr4",
    "__aeabi_memclr8",
    "__aeabi_memcpy",
    "__aeabi_memcpy4",
    "__aeabi_memcpy8",
    "__aeabi_memset",
    "__aeabi_uldivmod",
];
const THUMB_1: &[&str] = &[
    "__aeabi_lmul",
    "__aeabi_memclr",
    "__aeabi_memclr4",
    "__aeabi_memclr8",
    "__aeabi_memcpy",
    "__aeabi_memcpy4",
    "__aeabi_memcpy8",
    "__aeabi_memset",
    "__aeabi_uidiv",
    "__aeabi_uldivmod",
];

pub const X86_64: Target = Target {
    name: "x86-64",
    triple: None,
    words: &["-mno-red-zone"],
    images: LONGEST,
    stack_images: LONGEST,
    machine: Machine::Own,
    undefined: BYTES,
};

pub const AARCH64: Target = Target {
    name: "AArch64",
    triple: Some("aarch64-none-elf"),
    words: &["-DSTREAM_BYTES=4"],
    images: LONGEST,
    stack_images: LONGEST,
    machine: Machine::Linux("qemu-aarch64"),
    undefined: BYTES,
};

pub const RISCV64: Target = Target {
    name: "RISC-V 64",
    triple: Some("riscv64-none-elf"),
    words: &["-march=rv64imac", "-mabi=lp64", "-DSTREAM_BYTES=4"],
    images: LONGEST,
    stack_images: LONGEST,
    machine: Machine::Linux("qemu-riscv64"),
    undefined: BYTES,
};

pub const CORTEX_M0: Target = Target {
    name: "Cortex-M0",
    triple: Some("thumbv6m-none-eabi"),
    words: &["-DIMAGE_BYTES=4096"],
    images: 4_096,
    stack_images: 2_048,
    machine: Machine::Board { qemu: "qemu-system-arm", board: &["-M", "microbit"], script: MICROBIT },
    undefined: THUMB_1,
};

pub const CORTEX_M3: Target = Target {
    name: "Cortex-M3",
    triple: Some("thumbv7m-none-eabi"),
    words: &[],
    images: LONGEST,
    stack_images: LONGEST,
    machine: Machine::Board { qemu: "qemu-system-arm", board: &["-M", "mps2-an385"], script: CORTEX_M },
    undefined: THUMB_2,
};

pub const CORTEX_M4: Target = Target {
    name: "Cortex-M4",
    triple: Some("thumbv7em-none-eabi"),
    words: &[],
    images: LONGEST,
    stack_images: LONGEST,
    machine: Machine::Board { qemu: "qemu-system-arm", board: &["-M", "mps2-an386"], script: CORTEX_M },
    undefined: THUMB_2,
};

pub const RISCV32: Target = Target {
    name: "RISC-V 32",
    triple: Some("riscv32-none-elf"),
    words: &["-march=rv32imc_zicsr", "-mabi=ilp32"],
    images: LONGEST,
    stack_images: LONGEST,
    machine: Machine::Board {
        qemu: "qemu-system-riscv32",
        board: &["-M", "virt", "-bios", "none"],
        script: &["riscv32.ld"],
    },
    undefined: &["__udivdi3", "memcpy", "memset"],
};

pub const WASM32: Target = Target {
    name: "WebAssembly",
    triple: Some("wasm32"),
    words: &[],
    images: LONGEST,
    stack_images: 0,
    machine: Machine::Node,
    undefined: &[],
};

/// All but x86-64, with which they are compared.
pub const OTHERS: [Target; 7] = [AARCH64, RISCV64, CORTEX_M0, CORTEX_M3, CORTEX_M4, RISCV32, WASM32];

impl Target {
    /// The folder under `target/` that make fills.
    pub fn folder(&self) -> PathBuf {
        repository("target").join(self.triple.unwrap_or("staticlib"))
    }

    pub fn archive(&self) -> PathBuf {
        self.folder().join("libgrommetide.a")
    }

    /// What it runs in, in words.
    pub fn emulator(&self) -> String {
        match self.machine {
            Machine::Own => "none".to_string(),
            Machine::Linux(qemu) => qemu.to_string(),
            Machine::Board { qemu, board, .. } => format!("{qemu} {} {}, bare metal", board[0], board[1]),
            Machine::Node => "node".to_string(),
        }
    }
}
