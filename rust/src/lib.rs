//! The proved functions of crates/exports, for Rust (x86-64 Linux). What they answer is said, for
//! every input, in crates/exports/specs. Nothing here is proved: this module is the declarations and
//! the way from words to fields.
//!
//! Every function here is safe, demands nothing and always returns.

mod refusal;

pub use refusal::{Reason, Refusal};

use std::ops::Range;

/// The words of an answer, and of a row's.
const WORDS: usize = 24;
const ROW_WORDS: usize = 9;

/// The word where there is no index and no row.
const NONE: u64 = u64::MAX;

/// The exported functions, in the order of include/sbpf.h and with its arguments: a slice is a
/// pointer and its length in elements. Nothing checks them against crates/exports_c/src/lib.rt.
mod c {
    extern "C" {
        pub fn sbpf_hash(name: *const u8, name_len: usize) -> u32;
        pub fn sbpf_refusal_name(number: u32, name: *mut u8, name_len: usize) -> u32;
        pub fn sbpf_parse(
            file: *const u8,
            file_len: usize,
            answer: *mut u64,
            answer_len: usize,
        ) -> u32;
        pub fn sbpf_section_place(
            file: *const u8,
            file_len: usize,
            index: u32,
            answer: *mut u64,
            answer_len: usize,
        ) -> u32;
        pub fn sbpf_section_name(
            file: *const u8,
            file_len: usize,
            sh_name: u32,
            answer: *mut u64,
            answer_len: usize,
        ) -> u32;
        pub fn sbpf_symbol_name(
            file: *const u8,
            file_len: usize,
            st_name: u32,
            answer: *mut u64,
            answer_len: usize,
        ) -> u32;
        pub fn sbpf_dynamic_symbol_name(
            file: *const u8,
            file_len: usize,
            st_name: u32,
            answer: *mut u64,
            answer_len: usize,
        ) -> u32;
        pub fn sbpf_find_symbol(
            file: *const u8,
            file_len: usize,
            name: *const u8,
            name_len: usize,
            answer: *mut u64,
            answer_len: usize,
        ) -> u32;
        pub fn sbpf_symbol_table(
            file: *const u8,
            file_len: usize,
            answer: *mut u64,
            answer_len: usize,
        ) -> u32;
        pub fn sbpf_lookup(
            keys: *const u32,
            keys_len: usize,
            indices: *const u32,
            indices_len: usize,
            kinds: *const u32,
            kinds_len: usize,
            starts: *const u32,
            starts_len: usize,
            lengths: *const u32,
            lengths_len: usize,
            used: u64,
            key: u32,
            answer: *mut u64,
            answer_len: usize,
        ) -> u32;
        pub fn sbpf_lookup_ascending(
            keys: *const u32,
            keys_len: usize,
            indices: *const u32,
            indices_len: usize,
            kinds: *const u32,
            kinds_len: usize,
            starts: *const u32,
            starts_len: usize,
            lengths: *const u32,
            lengths_len: usize,
            used: u64,
            key: u32,
            answer: *mut u64,
            answer_len: usize,
        ) -> u32;
        pub fn sbpf_index_ascending(
            keys: *const u32,
            keys_len: usize,
            indices: *const u32,
            indices_len: usize,
            used: u64,
            key: u32,
        ) -> u64;
        pub fn sbpf_row_ascending(keys: *const u32, keys_len: usize, used: u64, key: u32) -> u64;
        pub fn sbpf_load(
            file: *const u8,
            file_len: usize,
            builtins: *const u32,
            builtins_len: usize,
            settings: u32,
            image: *mut u8,
            image_len: usize,
            ro: *mut u8,
            ro_len: usize,
            keys: *mut u32,
            keys_len: usize,
            indices: *mut u32,
            indices_len: usize,
            kinds: *mut u32,
            kinds_len: usize,
            starts: *mut u32,
            starts_len: usize,
            lengths: *mut u32,
            lengths_len: usize,
            answer: *mut u64,
            answer_len: usize,
        ) -> u32;
        pub fn sbpf_who_wrote(
            file: *const u8,
            file_len: usize,
            loaded: *const u64,
            loaded_len: usize,
            offset: u64,
            answer: *mut u64,
            answer_len: usize,
        ) -> u32;
        pub fn sbpf_who_wrote_all(
            file: *const u8,
            file_len: usize,
            loaded: *const u64,
            loaded_len: usize,
            numbers: *mut u32,
            numbers_len: usize,
            answer: *mut u64,
            answer_len: usize,
        ) -> u32;
        pub fn sbpf_load_who_wrote(
            file: *const u8,
            file_len: usize,
            builtins: *const u32,
            builtins_len: usize,
            settings: u32,
            image: *mut u8,
            image_len: usize,
            ro: *mut u8,
            ro_len: usize,
            keys: *mut u32,
            keys_len: usize,
            indices: *mut u32,
            indices_len: usize,
            kinds: *mut u32,
            kinds_len: usize,
            starts: *mut u32,
            starts_len: usize,
            lengths: *mut u32,
            lengths_len: usize,
            offset: u64,
            answer: *mut u64,
            answer_len: usize,
        ) -> u32;
        pub fn sbpf_call_depth(
            image: *const u8,
            image_len: usize,
            keys: *const u32,
            keys_len: usize,
            indices: *const u32,
            indices_len: usize,
            kinds: *const u32,
            kinds_len: usize,
            starts: *const u32,
            starts_len: usize,
            lengths: *const u32,
            lengths_len: usize,
            loaded: *const u64,
            loaded_len: usize,
            work: *mut u32,
            work_len: usize,
            limit: u32,
            answer: *mut u64,
            answer_len: usize,
        ) -> u32;
        pub fn sbpf_load_call_depth(
            file: *const u8,
            file_len: usize,
            builtins: *const u32,
            builtins_len: usize,
            settings: u32,
            image: *mut u8,
            image_len: usize,
            ro: *mut u8,
            ro_len: usize,
            keys: *mut u32,
            keys_len: usize,
            indices: *mut u32,
            indices_len: usize,
            kinds: *mut u32,
            kinds_len: usize,
            starts: *mut u32,
            starts_len: usize,
            lengths: *mut u32,
            lengths_len: usize,
            work: *mut u32,
            work_len: usize,
            limit: u32,
            answer: *mut u64,
            answer_len: usize,
        ) -> u32;
        pub fn sbpf_text_place(
            lent: u64,
            ro_offset: u64,
            ro_start: u64,
            ro_length: u64,
            text_addr: u64,
            text_length: u64,
            answer: *mut u64,
            answer_len: usize,
        ) -> u32;
    }
}

// Why the calls below are sound. The exported functions ask for three things: that each pointer
// with its length is a valid slice, that it is not null, and that lent slices do not overlap.
// Every pointer and length here comes from one Rust slice, which is valid for the whole call,
// aligned, and has a pointer that is not null, also where it is empty. The slices that are written
// are `&mut`, so none of them overlaps another slice. The library writes inside them alone, holds
// no pointer after it returns, and has no state of its own.

/// The words of a call that answers 0, else its refusal, whose name is a part of `file`.
fn answered(
    file: &[u8],
    call: impl FnOnce(*mut u64, usize) -> u32,
) -> Result<[u64; WORDS], Refusal> {
    let mut a = [0; WORDS];
    match call(a.as_mut_ptr(), WORDS) {
        0 => Ok(a),
        number => Err(Refusal::new(number, [a[1], a[2], a[3]], file)),
    }
}

/// The name of the refusal with a number; none where no refusal has it.
pub fn refusal_name(number: u32) -> Option<String> {
    // SAFETY: as said above.
    let give =
        |name: &mut [u8]| unsafe { c::sbpf_refusal_name(number, name.as_mut_ptr(), name.len()) };
    let mut name = vec![0; give(&mut []) as usize];
    give(&mut name);
    String::from_utf8(name).ok().filter(|name| !name.is_empty())
}

/// MurmurHash3, x86 32-bit, seed 0.
pub fn hash(name: &[u8]) -> u32 {
    // SAFETY: as said above; nothing is written.
    unsafe { c::sbpf_hash(name.as_ptr(), name.len()) }
}

/// A table of the file: where it starts, and how many entries it has.
#[derive(Clone, Copy, Debug, PartialEq, Eq)]
pub struct Entries {
    pub start: usize,
    pub count: usize,
}

/// Where things stand in a file. A header that was found by name is given by its offset, 0 where
/// there is none.
#[derive(Clone, Copy, Debug, PartialEq, Eq)]
pub struct Layout {
    pub program_headers: Entries,
    pub section_headers: Entries,
    pub shstrtab: usize,
    pub symtab: usize,
    pub strtab: usize,
    pub dynstr: usize,
    pub dynamic_relocations: Entries,
    /// The relocations that bring an addend.
    pub dynamic_relas: Entries,
    pub dynamic_symbols: Entries,
    /// The address of the symbols' hash table, 0 where there is none.
    pub hash_table: u64,
}

/// Where things stand in an ELF-64 file.
pub fn parse(file: &[u8]) -> Result<Layout, Refusal> {
    // SAFETY: as said above.
    let a = answered(file, |words, n| unsafe {
        c::sbpf_parse(file.as_ptr(), file.len(), words, n)
    })?;
    let entries = |k: usize| Entries {
        start: a[k] as usize,
        count: a[k + 1] as usize,
    };
    Ok(Layout {
        program_headers: entries(4),
        section_headers: entries(6),
        shstrtab: a[8] as usize,
        symtab: a[9] as usize,
        strtab: a[10] as usize,
        dynstr: a[11] as usize,
        dynamic_relocations: entries(12),
        dynamic_relas: entries(16),
        dynamic_symbols: entries(14),
        hash_table: a[18],
    })
}

type Question = unsafe extern "C" fn(*const u8, usize, u32, *mut u64, usize) -> u32;

/// The part of the file that a question answers. `question` is a function of `c`.
fn part(question: Question, file: &[u8], number: u32) -> Result<&[u8], Refusal> {
    // SAFETY: as said above.
    let a = answered(file, |words, n| unsafe {
        question(file.as_ptr(), file.len(), number, words, n)
    })?;
    Ok(&file[a[4] as usize..(a[4] + a[5]) as usize])
}

/// The contents of a section; 45 where there is none of that index, 46 where its header is of type 0.
/// This and the next four parse the file first, and answer its refusal.
pub fn section(file: &[u8], index: u32) -> Result<&[u8], Refusal> {
    part(c::sbpf_section_place, file, index)
}

/// The section name at a string offset.
pub fn section_name(file: &[u8], sh_name: u32) -> Result<&[u8], Refusal> {
    part(c::sbpf_section_name, file, sh_name)
}

/// The symbol name at a string offset.
pub fn symbol_name(file: &[u8], st_name: u32) -> Result<&[u8], Refusal> {
    part(c::sbpf_symbol_name, file, st_name)
}

/// The dynamic symbol name at a string offset.
pub fn dynamic_symbol_name(file: &[u8], st_name: u32) -> Result<&[u8], Refusal> {
    part(c::sbpf_dynamic_symbol_name, file, st_name)
}

/// The symbols of .symtab: no entries where there is no such section.
pub fn symbol_table(file: &[u8]) -> Result<Entries, Refusal> {
    // SAFETY: as said above.
    let a = answered(file, |words, n| unsafe {
        c::sbpf_symbol_table(file.as_ptr(), file.len(), words, n)
    })?;
    Ok(Entries {
        start: a[4] as usize,
        count: a[5] as usize,
    })
}

/// The number of the dynamic symbol with a name, through the file's hash table; none where no symbol of
/// the name's chain carries it. 48 where the table is absent or cannot be used.
pub fn find_symbol(file: &[u8], name: &[u8]) -> Result<Option<u32>, Refusal> {
    // SAFETY: as said above.
    let a = answered(file, |words, n| unsafe {
        c::sbpf_find_symbol(
            file.as_ptr(),
            file.len(),
            name.as_ptr(),
            name.len(),
            words,
            n,
        )
    })?;
    Ok((a[4] == 1).then_some(a[5] as u32))
}

/// The five columns of a table; it has as many rows as the shortest.
#[derive(Clone, Copy, Debug)]
pub struct Table<'a> {
    pub keys: &'a [u32],
    pub indices: &'a [u32],
    pub kinds: &'a [u32],
    pub starts: &'a [u32],
    pub lengths: &'a [u32],
}

/// A row's instruction index and name. Kinds: 0 empty, 1 the part of the file from `start` on, 2
/// the text entrypoint, 3 made from the index.
#[derive(Clone, Copy, Debug, PartialEq, Eq)]
pub struct Row {
    pub index: u32,
    pub kind: u32,
    pub start: u32,
    pub length: u32,
}

/// The first of the used rows with the key, whatever the columns hold; at most the rows lent count.
pub fn lookup(table: Table, used: usize, key: u32) -> Option<Row> {
    look_up(c::sbpf_lookup, table, used, key)
}

/// The same by a binary search: on the table and the used rows that a load has left, whose keys
/// ascend, it answers what `lookup` answers, in few steps. On other columns it may miss a row.
pub fn lookup_ascending(table: Table, used: usize, key: u32) -> Option<Row> {
    look_up(c::sbpf_lookup_ascending, table, used, key)
}

/// The index of that row alone, by the columns of keys and indices: the quickest way from a call's key
/// to its function.
pub fn index_ascending(table: Table, used: usize, key: u32) -> Option<u32> {
    // SAFETY: as said above.
    let index = unsafe {
        c::sbpf_index_ascending(
            table.keys.as_ptr(),
            table.keys.len(),
            table.indices.as_ptr(),
            table.indices.len(),
            used as u64,
            key,
        )
    };
    (index != NONE).then_some(index as u32)
}

/// The number of that row, by the column of keys: where more than the index is wanted, it is read at
/// that number in the columns, with nothing copied.
pub fn row_ascending(table: Table, used: usize, key: u32) -> Option<usize> {
    // SAFETY: as said above; nothing is written.
    let row =
        unsafe { c::sbpf_row_ascending(table.keys.as_ptr(), table.keys.len(), used as u64, key) };
    (row != NONE).then_some(row as usize)
}

#[rustfmt::skip]
type Lookup = unsafe extern "C" fn(
    *const u32, usize, *const u32, usize, *const u32, usize, *const u32, usize, *const u32, usize,
    u64, u32, *mut u64, usize,
) -> u32;

fn look_up(call: Lookup, table: Table, used: usize, key: u32) -> Option<Row> {
    let mut a = [0; ROW_WORDS];
    // SAFETY: as said above. A lookup refuses nothing.
    unsafe {
        call(
            table.keys.as_ptr(),
            table.keys.len(),
            table.indices.as_ptr(),
            table.indices.len(),
            table.kinds.as_ptr(),
            table.kinds.len(),
            table.starts.as_ptr(),
            table.starts.len(),
            table.lengths.as_ptr(),
            table.lengths.len(),
            used as u64,
            key,
            a.as_mut_ptr(),
            a.len(),
        )
    };
    (a[4] == 1).then_some(Row {
        index: a[5] as u32,
        kind: a[6] as u32,
        start: a[7] as u32,
        length: a[8] as u32,
    })
}

/// The settings of a load, by the names of the Rust's `Config` in short.
#[derive(Clone, Copy, Debug, PartialEq, Eq)]
pub struct Settings {
    /// `enable_symbol_and_section_labels`
    pub labels: bool,
    /// `reject_broken_elfs`
    pub reject_broken: bool,
    /// `external_internal_function_hash_collision`
    pub collision_check: bool,
    /// `optimize_rodata`
    pub optimize: bool,
    /// `enable_sbpf_v1`
    pub v1: bool,
    /// `enable_sbpf_v2`
    pub v2: bool,
}

impl Settings {
    pub const ALL_ON: Settings = Settings {
        labels: true,
        reject_broken: true,
        collision_check: true,
        optimize: true,
        v1: true,
        v2: true,
    };

    fn bits(self) -> u32 {
        self.labels as u32
            | (self.reject_broken as u32) << 1
            | (self.collision_check as u32) << 2
            | (self.optimize as u32) << 3
            | (self.v1 as u32) << 4
            | (self.v2 as u32) << 5
    }
}

/// What is lent to a load. Image and read-only buffer are at least as long as the file (else 41);
/// the table has as many rows as the shortest column (43 where the functions do not fit). What they
/// hold before does not matter.
///
/// After an accepted load the image is the file, relocated; the read-only buffer holds the copied
/// bytes, if they were copied; the columns hold the used rows, ascending by key; all behind that is
/// zero. After a refused one they hold only zeros.
#[derive(Debug)]
pub struct Lent<'a> {
    pub image: &'a mut [u8],
    pub ro: &'a mut [u8],
    pub keys: &'a mut [u32],
    pub indices: &'a mut [u32],
    pub kinds: &'a mut [u32],
    pub starts: &'a mut [u32],
    pub lengths: &'a mut [u32],
}

impl Lent<'_> {
    /// The columns, to look a key up.
    pub fn table(&self) -> Table<'_> {
        Table {
            keys: self.keys,
            indices: self.indices,
            kinds: self.kinds,
            starts: self.starts,
            lengths: self.lengths,
        }
    }

    /// The bytes that hold the read-only ones of a load.
    fn holding(&self, a: &Accepted) -> &[u8] {
        if a.ro_copied {
            self.ro
        } else {
            self.image
        }
    }

    /// The read-only bytes after the load into these that answered `a`; none where they are not
    /// here.
    pub fn read_only(&self, a: &Accepted) -> Option<&[u8]> {
        let end = a.ro_start.checked_add(a.ro_length)?;
        self.holding(a).get(a.ro_start..end)
    }

    /// The text after the load into these that answered `a`, or 44.
    pub fn text(&self, a: &Accepted) -> Result<&[u8], Refusal> {
        let held = self.holding(a);
        Ok(&held[text_place(held.len(), a)?])
    }
}

/// An accepted load: version (1 or 2), the entry's instruction index, rows used, rows moved in all;
/// whether the read-only bytes were copied to the buffer, how far behind 0x100000000 they are
/// addressed, where they start in the image (0 if copied) and their number; the text's address and
/// its place in the file.
#[derive(Clone, Copy, Debug, PartialEq, Eq)]
pub struct Accepted {
    pub version: u32,
    pub entry: u32,
    pub used: usize,
    pub moves: u64,
    pub ro_copied: bool,
    pub ro_offset: u64,
    pub ro_start: usize,
    pub ro_length: usize,
    pub text_addr: u64,
    pub text_start: usize,
    pub text_length: usize,
}

/// How many words of a load's answer are used, and where the writer's two, or the chain, stand behind them.
const LOAD_WORDS: usize = 15;
const LOAD_WRITER: usize = LOAD_WORDS;
const LOAD_DEPTH: usize = LOAD_WORDS;

impl Accepted {
    /// From the words of a load's answer.
    fn of(a: &[u64; WORDS]) -> Accepted {
        Accepted {
            version: a[4] as u32,
            entry: a[5] as u32,
            used: a[6] as usize,
            moves: a[7],
            ro_copied: a[8] == 1,
            ro_offset: a[9],
            ro_start: a[10] as usize,
            ro_length: a[11] as usize,
            text_addr: a[12],
            text_start: a[13] as usize,
            text_length: a[14] as usize,
        }
    }

    /// The words again.
    fn words(&self) -> [u64; LOAD_WORDS] {
        [
            0,
            0,
            0,
            0,
            self.version as u64,
            self.entry as u64,
            self.used as u64,
            self.moves,
            self.ro_copied as u64,
            self.ro_offset,
            self.ro_start as u64,
            self.ro_length as u64,
            self.text_addr,
            self.text_start as u64,
            self.text_length as u64,
        ]
    }
}

/// Loads a file of at most 16,777,216 bytes (else 40). The built-ins are keys that strictly ascend
/// (else 42).
pub fn load(
    file: &[u8],
    builtins: &[u32],
    settings: Settings,
    lent: &mut Lent,
) -> Result<Accepted, Refusal> {
    // SAFETY: as said above.
    let a = answered(file, |words, n| unsafe {
        c::sbpf_load(
            file.as_ptr(),
            file.len(),
            builtins.as_ptr(),
            builtins.len(),
            settings.bits(),
            lent.image.as_mut_ptr(),
            lent.image.len(),
            lent.ro.as_mut_ptr(),
            lent.ro.len(),
            lent.keys.as_mut_ptr(),
            lent.keys.len(),
            lent.indices.as_mut_ptr(),
            lent.indices.len(),
            lent.kinds.as_mut_ptr(),
            lent.kinds.len(),
            lent.starts.as_mut_ptr(),
            lent.starts.len(),
            lent.lengths.as_mut_ptr(),
            lent.lengths.len(),
            words,
            n,
        )
    })?;
    Ok(Accepted::of(&a))
}

/// Who wrote a byte of an accepted load's image: the file, the call in a slot of the text, or a
/// relocation, counted from 0 as they are applied, those that bring an addend behind the others.
#[derive(Clone, Copy, Debug, PartialEq, Eq)]
pub enum Writer {
    File,
    Call(u32),
    Relocation(u32),
}

/// The number of relocation 0 among those that `who_wrote_all` fills in.
const RELOCATION_CODE: u32 = 0x8000_0000;

impl Writer {
    /// By the two words of an answer.
    fn by(kind: u64, number: u64) -> Writer {
        match kind {
            0 => Writer::File,
            1 => Writer::Call(number as u32),
            _ => Writer::Relocation(number as u32),
        }
    }

    /// By a number that `who_wrote_all` filled in.
    pub fn of_number(number: u32) -> Writer {
        match number {
            0 => Writer::File,
            n if n < RELOCATION_CODE => Writer::Call(n - 1),
            n => Writer::Relocation(n - RELOCATION_CODE),
        }
    }
}

/// Who wrote a byte of the image that the load of this file which answered `a` has made: whichever wrote
/// it last, even where the value came out the same. 45 where `offset` is not below the file's length.
/// For a few bytes: each time the file is parsed. Of an answer that no load of this file gave it is told
/// what include/sbpf.h says.
pub fn who_wrote(file: &[u8], a: &Accepted, offset: usize) -> Result<Writer, Refusal> {
    let loaded = a.words();
    // SAFETY: as said above.
    let a = answered(file, |words, n| unsafe {
        c::sbpf_who_wrote(
            file.as_ptr(),
            file.len(),
            loaded.as_ptr(),
            loaded.len(),
            offset as u64,
            words,
            n,
        )
    })?;
    Ok(Writer::by(a[4], a[5]))
}

/// The same of every byte of the file, in one pass: `Writer::of_number` of the number at the byte's offset.
/// Behind the file's bytes the numbers are zeros. 41 where they are fewer than the file's bytes; a refusal
/// leaves only zeros.
pub fn who_wrote_all(file: &[u8], a: &Accepted, numbers: &mut [u32]) -> Result<(), Refusal> {
    let loaded = a.words();
    // SAFETY: as said above.
    answered(file, |words, n| unsafe {
        c::sbpf_who_wrote_all(
            file.as_ptr(),
            file.len(),
            loaded.as_ptr(),
            loaded.len(),
            numbers.as_mut_ptr(),
            numbers.len(),
            words,
            n,
        )
    })?;
    Ok(())
}

/// The refusal of the question about a byte, which no load is refused with.
const NO_SUCH_INDEX: u32 = 45;

/// A load, as `load`, and who wrote a byte of its image. The writer is 45 where `offset` is not below the
/// file's length; what was lent then holds the accepted load's content all the same.
pub fn load_who_wrote(
    file: &[u8],
    builtins: &[u32],
    settings: Settings,
    lent: &mut Lent,
    offset: usize,
) -> Result<(Accepted, Result<Writer, Refusal>), Refusal> {
    let mut a = [0; WORDS];
    // SAFETY: as said above.
    let number = unsafe {
        c::sbpf_load_who_wrote(
            file.as_ptr(),
            file.len(),
            builtins.as_ptr(),
            builtins.len(),
            settings.bits(),
            lent.image.as_mut_ptr(),
            lent.image.len(),
            lent.ro.as_mut_ptr(),
            lent.ro.len(),
            lent.keys.as_mut_ptr(),
            lent.keys.len(),
            lent.indices.as_mut_ptr(),
            lent.indices.len(),
            lent.kinds.as_mut_ptr(),
            lent.kinds.len(),
            lent.starts.as_mut_ptr(),
            lent.starts.len(),
            lent.lengths.as_mut_ptr(),
            lent.lengths.len(),
            offset as u64,
            a.as_mut_ptr(),
            a.len(),
        )
    };
    let accepted = Accepted::of(&a);
    let refusal = || Refusal::new(number, [a[1], a[2], a[3]], file);
    match number {
        0 => {
            let writer = Writer::by(a[LOAD_WRITER], a[LOAD_WRITER + 1]);
            Ok((accepted, Ok(writer)))
        }
        NO_SUCH_INDEX => Ok((accepted, Err(refusal()))),
        _ => Err(refusal()),
    }
}

/// How deep the profile calls whose load answered `a` and left this image and this table: the longest chain of
/// calls that begins at the entry, counted in functions. `work` has a number for each row lent, used or not (else 41);
/// what it holds before does not matter, and afterwards it is left free. `limit` is from 1 to 64; any other is read
/// as 64. 50 where a function that the entry reaches reaches itself, with the smallest such index; 51 where the chain
/// passes the limit, with the chain. Of what no load has left it is told what include/sbpf.h says.
pub fn call_depth(
    image: &[u8],
    table: Table,
    a: &Accepted,
    work: &mut [u32],
    limit: u32,
) -> Result<u32, Refusal> {
    let loaded = a.words();
    // SAFETY: as said above.
    let a = answered(&[], |words, n| unsafe {
        c::sbpf_call_depth(
            image.as_ptr(),
            image.len(),
            table.keys.as_ptr(),
            table.keys.len(),
            table.indices.as_ptr(),
            table.indices.len(),
            table.kinds.as_ptr(),
            table.kinds.len(),
            table.starts.as_ptr(),
            table.starts.len(),
            table.lengths.as_ptr(),
            table.lengths.len(),
            loaded.as_ptr(),
            loaded.len(),
            work.as_mut_ptr(),
            work.len(),
            limit,
            words,
            n,
        )
    })?;
    Ok(a[4] as u32)
}

/// A load, as `load`, and how deep the profile calls. Where the question is refused, with 41, 50 or 51, what was
/// lent holds the accepted load's content all the same.
pub fn load_call_depth(
    file: &[u8],
    builtins: &[u32],
    settings: Settings,
    lent: &mut Lent,
    work: &mut [u32],
    limit: u32,
) -> Result<(Accepted, Result<u32, Refusal>), Refusal> {
    let mut a = [0; WORDS];
    // SAFETY: as said above.
    let number = unsafe {
        c::sbpf_load_call_depth(
            file.as_ptr(),
            file.len(),
            builtins.as_ptr(),
            builtins.len(),
            settings.bits(),
            lent.image.as_mut_ptr(),
            lent.image.len(),
            lent.ro.as_mut_ptr(),
            lent.ro.len(),
            lent.keys.as_mut_ptr(),
            lent.keys.len(),
            lent.indices.as_mut_ptr(),
            lent.indices.len(),
            lent.kinds.as_mut_ptr(),
            lent.kinds.len(),
            lent.starts.as_mut_ptr(),
            lent.starts.len(),
            lent.lengths.as_mut_ptr(),
            lent.lengths.len(),
            work.as_mut_ptr(),
            work.len(),
            limit,
            a.as_mut_ptr(),
            a.len(),
        )
    };
    let accepted = Accepted::of(&a);
    let refusal = || Refusal::new(number, [a[1], a[2], a[3]], file);
    match (number, accepted.version) {
        (0, _) => Ok((accepted, Ok(a[LOAD_DEPTH] as u32))),
        // a refused load leaves no version
        (_, 0) => Err(refusal()),
        _ => Ok((accepted, Err(refusal()))),
    }
}

/// Where the text of a load stands in the bytes that hold the read-only ones, which are `lent`
/// many: the image's, or, where they were copied, the buffer's. Else 44.
pub fn text_place(lent: usize, a: &Accepted) -> Result<Range<usize>, Refusal> {
    // SAFETY: as said above.
    let place = answered(&[], |words, n| unsafe {
        c::sbpf_text_place(
            lent as u64,
            a.ro_offset,
            a.ro_start as u64,
            a.ro_length as u64,
            a.text_addr,
            a.text_length as u64,
            words,
            n,
        )
    })?;
    Ok(place[4] as usize..(place[4] + place[5]) as usize)
}

#[cfg(test)]
mod tests;
