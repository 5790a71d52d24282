//! The Rust's answer to a load, in the scope's terms.

use crate::{port::Question, Settings};
use rbpf::{
    aligned_memory::AlignedMemory,
    ebpf,
    elf::{ElfError, Executable},
    elf_parser::{Elf64, ElfParserError},
    program::{BuiltinProgram, FunctionRegistry, SBPFVersion},
    vm::{Config, EbpfVm, TestContextObject},
};
use std::{
    cell::Cell,
    fmt::{self, Write},
    panic::{catch_unwind, AssertUnwindSafe},
    sync::{Arc, Once},
};

/// A number of the scope with its value. The name is the `String` that the
/// Rust carries, that is `String::from_utf8_lossy` of the bytes in the file.
#[derive(Clone, Debug, PartialEq, Eq)]
pub struct Refused {
    pub number: u32,
    pub value: u64,
    pub name: Option<Vec<u8>>,
}

/// The Rust's `Section`.
#[derive(Clone, Debug, PartialEq, Eq)]
pub struct ReadOnly {
    /// `Section::Owned`
    pub copied: bool,
    pub addr_offset: u64,
    /// Place in the image; 0 if copied.
    pub start: u64,
    pub length: u64,
    pub bytes: Vec<u8>,
}

/// What `get_text_bytes` does.
#[derive(Clone, Debug, PartialEq, Eq)]
pub enum Text {
    Part {
        vaddr: u64,
        bytes: Vec<u8>,
    },
    /// It panics.
    Aborted,
}

/// A row of the function table.
#[derive(Clone, Debug, PartialEq, Eq)]
pub struct Row {
    pub key: u32,
    pub index: u64,
    pub name: Vec<u8>,
}

#[derive(Clone, Debug, PartialEq, Eq)]
pub struct Accepted {
    pub version: u32,
    pub entry: u64,
    pub image: Vec<u8>,
    pub ro: ReadOnly,
    pub text: Text,
    /// Ascending by key.
    pub rows: Vec<Row>,
}

#[derive(Clone, Debug, PartialEq, Eq)]
pub enum Outcome {
    Refused(Refused),
    Accepted(Accepted),
    /// The Rust accepts, but needs this many rows, more than were lent. The
    /// port answers 43, so there is nothing to compare.
    TableTooSmall {
        needed: usize,
    },
    /// The Rust panics in `load`.
    Panicked(String),
}

type Program = Executable<TestContextObject>;

thread_local! {
    static SILENT: Cell<bool> = const { Cell::new(false) };
}

/// Runs `f`; a panic in it prints nothing and comes back as its text.
fn catch<T>(f: impl FnOnce() -> T) -> Result<T, String> {
    static HOOK: Once = Once::new();
    HOOK.call_once(|| {
        let usual = std::panic::take_hook();
        std::panic::set_hook(Box::new(move |info| {
            if !SILENT.with(Cell::get) {
                usual(info)
            }
        }));
    });
    SILENT.with(|s| s.set(true));
    let result = catch_unwind(AssertUnwindSafe(f));
    SILENT.with(|s| s.set(false));
    result.map_err(|panic| {
        panic
            .downcast_ref::<String>()
            .cloned()
            .or_else(|| panic.downcast_ref::<&str>().map(|s| s.to_string()))
            .unwrap_or_else(|| "?".to_string())
    })
}

pub fn parser_number(err: &ElfParserError) -> u32 {
    match err {
        ElfParserError::InvalidFileHeader => 1,
        ElfParserError::InvalidProgramHeader => 2,
        ElfParserError::InvalidSectionHeader => 3,
        ElfParserError::StringTooLong(_, _) => 4,
        ElfParserError::OutOfBounds => 5,
        ElfParserError::InvalidSize => 6,
        ElfParserError::Overlap => 7,
        ElfParserError::SectionNotInOrder => 8,
        ElfParserError::NoSectionNameStringTable => 9,
        ElfParserError::InvalidDynamicSectionTable => 10,
        ElfParserError::InvalidAlignment => 11,
        ElfParserError::NoStringTable => 12,
        ElfParserError::NoDynamicStringTable => 13,
        ElfParserError::InvalidString | ElfParserError::InvalidRelocationTable => {
            unreachable!("the scope has no number for {err:?}")
        }
    }
}

/// The number of the refusal that the Rust calls StringTooLong: of a name that its section cuts off, and of one
/// that is too long.
pub fn unclosed(cut: bool) -> u32 {
    match cut {
        true => 49,
        false => 4,
    }
}

/// The refusal with a number that one of the dynamic table's has.
pub fn parser_error(number: u32) -> ElfParserError {
    match number {
        3 => ElfParserError::InvalidSectionHeader,
        5 => ElfParserError::OutOfBounds,
        6 => ElfParserError::InvalidSize,
        10 => ElfParserError::InvalidDynamicSectionTable,
        11 => ElfParserError::InvalidAlignment,
        _ => unreachable!("no refusal of a dynamic table: {number}"),
    }
}

pub fn parser_refusal(err: ElfParserError) -> Refused {
    let number = parser_number(&err);
    let name = match err {
        ElfParserError::StringTooLong(name, _) => Some(name.into_bytes()),
        _ => None,
    };
    Refused {
        number,
        value: 0,
        name,
    }
}

pub fn load_refusal(err: ElfError) -> Refused {
    let (number, value, name) = match err {
        ElfError::InvalidProgramHeader => (2, 0, None),
        ElfError::EntrypointOutOfBounds => (20, 0, None),
        ElfError::InvalidEntrypoint => (21, 0, None),
        ElfError::UnresolvedSymbol(name, _instruction, offset) => {
            (22, offset as u64, Some(name.into_bytes()))
        }
        ElfError::RelativeJumpOutOfBounds(slot) => (23, slot as u64, None),
        ElfError::SymbolHashCollision(key) => (24, key as u64, None),
        ElfError::WrongAbi => (25, 0, None),
        ElfError::WrongMachine => (26, 0, None),
        ElfError::NotOneTextSection => (27, 0, None),
        ElfError::WritableSectionNotSupported(name) => (28, 0, Some(name.into_bytes())),
        ElfError::InvalidVirtualAddress(address) => (29, address, None),
        ElfError::UnknownRelocation(kind) => (30, kind as u64, None),
        ElfError::WrongType => (31, 0, None),
        ElfError::UnknownSymbol(symbol) => (32, symbol as u64, None),
        ElfError::ValueOutOfBounds => (33, 0, None),
        ElfError::UnsupportedSBPFVersion => (34, 0, None),
        other => unreachable!("the scope says this is never reached: {other:?}"),
    };
    Refused {
        number,
        value,
        name,
    }
}

fn builtin(_: *mut EbpfVm<TestContextObject>, _: u64, _: u64, _: u64, _: u64, _: u64) {}

/// The loader program with these settings and built-ins.
pub fn loader(settings: Settings, builtins: &[u32]) -> Arc<BuiltinProgram<TestContextObject>> {
    let mut functions = FunctionRegistry::default();
    for key in builtins {
        functions
            .register_function(
                *key,
                Vec::new(),
                builtin as rbpf::program::BuiltinFunction<TestContextObject>,
            )
            .unwrap();
    }
    let config = Config {
        enable_symbol_and_section_labels: settings.labels,
        reject_broken_elfs: settings.reject_broken,
        external_internal_function_hash_collision: settings.collision_check,
        optimize_rodata: settings.optimize,
        enable_sbpf_v1: settings.v1,
        enable_sbpf_v2: settings.v2,
        ..Config::default()
    };
    Arc::new(BuiltinProgram::new_loader(config, functions))
}

/// The true `Executable::load`, for timing.
pub fn load_once(file: &[u8], loader: &Arc<BuiltinProgram<TestContextObject>>) -> bool {
    Program::load(file, loader.clone()).is_ok()
}

/// The Rust's hash.
pub fn hash(name: &[u8]) -> u32 {
    ebpf::hash_symbol_name(name)
}

/// The Rust's answer to a question to a file: a start and a length, of no bytes (0, 0).
pub fn ask(file: &[u8], question: Question, number: u32) -> Result<(u64, u64), Refused> {
    let aligned = AlignedMemory::<16>::from_slice(file);
    let bytes = aligned.as_slice();
    let elf = Elf64::parse(bytes).map_err(parser_refusal)?;
    let name = match question {
        Question::SectionPlace => {
            let header = elf.section_header_table().get(number as usize);
            let range = header.and_then(|h| h.file_range()).unwrap_or_default();
            return Ok((range.start as u64, range.len() as u64));
        }
        Question::SectionName => elf.section_name(number),
        Question::SymbolName => elf.symbol_name(number),
        Question::DynamicSymbolName => elf.dynamic_symbol_name(number),
    };
    let name = name.map_err(parser_refusal)?;
    let start = name.as_ptr() as usize - bytes.as_ptr() as usize;
    Ok((start as u64, name.len() as u64))
}

/// The Rust's answer. `builtins` ascends strictly. `rows` only decides
/// between `Accepted` and `TableTooSmall`; where the Rust refuses, a table of
/// fewer rows than the keys it had registered until then makes the port answer
/// 43 earlier, which this function cannot see: lend enough rows.
pub fn outcome(file: &[u8], settings: Settings, builtins: &[u32], rows: usize) -> Outcome {
    assert!(
        builtins.windows(2).all(|w| w[0] < w[1]),
        "built-ins must ascend"
    );
    let loader = loader(settings, builtins);
    let loaded = match catch(|| Program::load(file, loader)) {
        Ok(loaded) => loaded,
        Err(text) => return Outcome::Panicked(text),
    };
    if let Err(parse_err) = {
        let aligned = AlignedMemory::<16>::from_slice(file);
        Elf64::parse(aligned.as_slice()).map(|_| ())
    } {
        let mut refused = parser_refusal(parse_err);
        // 5 becomes 33 in a load, 2 stays, the others are kept as text
        match (&refused.number, loaded) {
            (5, Err(ElfError::ValueOutOfBounds)) => refused.number = 33,
            (2, Err(ElfError::InvalidProgramHeader)) => {}
            (_, Err(ElfError::FailedToParse(_))) => {}
            (number, other) => panic!("parse says {number}, load says {:?}", other.err()),
        }
        return Outcome::Refused(refused);
    }
    let program = match loaded {
        Ok(program) => program,
        Err(err) => return Outcome::Refused(load_refusal(err)),
    };

    let rows_needed: Vec<Row> = program
        .get_function_registry()
        .iter()
        .map(|(key, (name, index))| Row {
            key,
            index: index as u64,
            name: name.to_vec(),
        })
        .collect();
    if rows < rows_needed.len() {
        return Outcome::TableTooSmall {
            needed: rows_needed.len(),
        };
    }
    let (image, ro) = private_fields(&program);
    // What the public readers tell must agree with the fields.
    assert_eq!(ro.bytes, program.get_ro_section());
    let region = program.get_ro_region();
    assert_eq!(region.vm_addr, ebpf::MM_PROGRAM_START + ro.addr_offset);
    assert_eq!(region.len as u64, ro.length);
    let text = match catch(|| {
        let (vaddr, bytes) = program.get_text_bytes();
        (vaddr, bytes.to_vec())
    }) {
        Ok((vaddr, bytes)) => Text::Part { vaddr, bytes },
        Err(_) => Text::Aborted,
    };
    Outcome::Accepted(Accepted {
        version: match program.get_sbpf_version() {
            SBPFVersion::V1 => 1,
            SBPFVersion::V2 => 2,
            SBPFVersion::V3 => unreachable!(),
        },
        entry: program.get_entrypoint_instruction_offset() as u64,
        image,
        ro,
        text,
        rows: rows_needed,
    })
}

/// Collects what is written until the field behind `ro_section` begins.
struct UntilTextSection(String);

impl fmt::Write for UntilTextSection {
    fn write_str(&mut self, s: &str) -> fmt::Result {
        if s == "text_section_info" {
            return Err(fmt::Error);
        }
        self.0.push_str(s);
        Ok(())
    }
}

/// `elf_bytes` and `ro_section` are private; both are read back from the text
/// that the derived `Debug` of `Executable` writes.
fn private_fields(program: &Program) -> (Vec<u8>, ReadOnly) {
    let mut out = UntilTextSection(String::new());
    let _stopped_early = write!(out, "{program:?}");
    let mut text = Reader {
        bytes: out.0.as_bytes(),
        at: 0,
    };
    text.expect("Executable { elf_bytes: AlignedMemory { max_len: ");
    let max_len = text.number() as usize;
    text.expect(", align_offset: ");
    let align_offset = text.number() as usize;
    text.expect(", mem: ");
    let mut image = text.list();
    assert_eq!(image.len(), max_len + align_offset);
    image.drain(..align_offset);
    text.expect(", zero_up_to_max_len: false }, sbpf_version: V");
    text.number();
    text.expect(", ro_section: ");
    let ro = if text.bytes[text.at] == b'O' {
        text.expect("Owned(");
        let addr_offset = text.number();
        text.expect(", ");
        let bytes = text.list();
        ReadOnly {
            copied: true,
            addr_offset,
            start: 0,
            length: bytes.len() as u64,
            bytes,
        }
    } else {
        text.expect("Borrowed(");
        let addr_offset = text.number();
        text.expect(", ");
        let start = text.number();
        text.expect("..");
        let end = text.number();
        let bytes = image[start as usize..end as usize].to_vec();
        ReadOnly {
            copied: false,
            addr_offset,
            start,
            length: end - start,
            bytes,
        }
    };
    text.expect(")");
    (image, ro)
}

struct Reader<'a> {
    bytes: &'a [u8],
    at: usize,
}

impl Reader<'_> {
    fn expect(&mut self, what: &str) {
        let rest = &self.bytes[self.at..];
        assert!(
            rest.starts_with(what.as_bytes()),
            "expected {what:?}, found {:?}",
            String::from_utf8_lossy(&rest[..rest.len().min(60)])
        );
        self.at += what.len();
    }
    fn number(&mut self) -> u64 {
        let start = self.at;
        let mut n = 0u64;
        while let Some(digit) = self.bytes.get(self.at).filter(|b| b.is_ascii_digit()) {
            n = n
                .checked_mul(10)
                .unwrap()
                .checked_add((digit - b'0') as u64)
                .unwrap();
            self.at += 1;
        }
        assert!(self.at > start, "expected a number");
        n
    }
    fn list(&mut self) -> Vec<u8> {
        let mut out = Vec::new();
        self.expect("[");
        if self.bytes[self.at] == b']' {
            self.at += 1;
            return out;
        }
        loop {
            out.push(u8::try_from(self.number()).unwrap());
            match self.bytes[self.at] {
                b']' => {
                    self.at += 1;
                    return out;
                }
                _ => self.expect(", "),
            }
        }
    }
}
