//! The proved functions and the Rust, side by side. `outcome` has the Rust's answers
//! in the scope's numbers: solana_rbpf 0.8.5, compiled unchanged from RBPF_SRC. `port` calls
//! the proved functions. `cases` makes the inputs, `compare` asks both, and `loads` does for whole
//! loads, whose answers `expected` has in full, `wrote` for who wrote their bytes, and `measured` for how
//! deep they call. `worked` has the scope's examples.

pub mod bench;
pub mod cases;
pub mod compare;
pub mod depth;
pub mod dynamic;
pub mod elf;
pub mod expected;
pub mod finding;
pub mod loads;
pub mod measured;
pub mod model;
pub mod mutate;
pub mod outcome;
pub mod port;
pub mod random;
pub mod twins;
pub mod worked;
pub mod writers;
pub mod wrote;

pub use outcome::{outcome, Outcome};

/// The six settings, named as in the scope.
#[derive(Clone, Copy, Debug, PartialEq, Eq)]
pub struct Settings {
    /// `enable_symbol_and_section_labels`
    pub labels: bool,
    /// `reject_broken_elfs`
    pub reject_broken: bool,
    /// `external_internal_function_hash_collision`
    pub collision_check: bool,
    /// `optimize_rodata`
    pub optimize: bool,
    /// `enable_sbpf_v1`
    pub v1: bool,
    /// `enable_sbpf_v2`
    pub v2: bool,
}

impl Settings {
    /// All on, as in the scope's `loadlist`.
    pub const ALL_ON: Settings = Settings {
        labels: true,
        reject_broken: true,
        collision_check: true,
        optimize: true,
        v1: true,
        v2: true,
    };

    /// Bits 0 to 5 in the order of the fields.
    pub fn from_bits(bits: u64) -> Settings {
        Settings {
            labels: bits & 1 != 0,
            reject_broken: bits & 2 != 0,
            collision_check: bits & 4 != 0,
            optimize: bits & 8 != 0,
            v1: bits & 16 != 0,
            v2: bits & 32 != 0,
        }
    }

    pub fn bits(&self) -> u64 {
        self.labels as u64
            | (self.reject_broken as u64) << 1
            | (self.collision_check as u64) << 2
            | (self.optimize as u64) << 3
            | (self.v1 as u64) << 4
            | (self.v2 as u64) << 5
    }
}

/// The name of a number of the scope.
pub fn number_name(number: u32) -> &'static str {
    match number {
        1 => "InvalidFileHeader",
        2 => "InvalidProgramHeader",
        3 => "InvalidSectionHeader",
        4 => "StringTooLong",
        5 => "OutOfBounds",
        6 => "InvalidSize",
        7 => "Overlap",
        8 => "SectionNotInOrder",
        9 => "NoSectionNameStringTable",
        10 => "InvalidDynamicSectionTable",
        11 => "InvalidAlignment",
        12 => "NoStringTable",
        13 => "NoDynamicStringTable",
        20 => "EntrypointOutOfBounds",
        21 => "InvalidEntrypoint",
        22 => "UnresolvedSymbol",
        23 => "RelativeJumpOutOfBounds",
        24 => "SymbolHashCollision",
        25 => "WrongAbi",
        26 => "WrongMachine",
        27 => "NotOneTextSection",
        28 => "WritableSectionNotSupported",
        29 => "InvalidVirtualAddress",
        30 => "UnknownRelocation",
        31 => "WrongType",
        32 => "UnknownSymbol",
        33 => "ValueOutOfBounds",
        34 => "UnsupportedSBPFVersion",
        40 => "FileTooLong",
        41 => "BufferShort",
        42 => "BuiltinsNotAscending",
        43 => "TableFull",
        44 => "TextOutsideReadOnly",
        45 => "NoSuchIndex",
        46 => "NotASection",
        47 => "AddendNegative",
        48 => "BadHashTable",
        49 => "StringUnterminated",
        50 => "RecursiveCall",
        51 => "TooDeep",
        _ => "?",
    }
}
