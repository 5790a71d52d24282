//! The proved functions, as the static library exports them.

/// Declares functions of the library as C does: each slice is a pointer and its length. Where the
/// library lacks them (build.rs tells), a call says so instead.
macro_rules! proved {
    ($cfg:ident: $(fn $name:ident($($arg:ident: $ty:ty),* $(,)?) -> $answer:ty;)*) => {
        #[cfg($cfg)]
        extern "C" {
            $(fn $name($($arg: $ty),*) -> $answer;)*
        }
        $(
            #[cfg(not($cfg))]
            #[allow(clippy::too_many_arguments)]
            unsafe fn $name($(_: $ty),*) -> $answer {
                panic!("the library was built without {}", stringify!($name))
            }
        )*
    };
}

proved! { port:
    fn sbpf_hash(name: *const u8, name_len: usize) -> u32;
    fn sbpf_parse(file: *const u8, file_len: usize, answer: *mut u64, answer_len: usize) -> u32;
    fn sbpf_section_place(
        file: *const u8, file_len: usize,
        index: u32,
        answer: *mut u64, answer_len: usize,
    ) -> u32;
    fn sbpf_section_name(
        file: *const u8, file_len: usize,
        sh_name: u32,
        answer: *mut u64, answer_len: usize,
    ) -> u32;
    fn sbpf_symbol_name(
        file: *const u8, file_len: usize,
        st_name: u32,
        answer: *mut u64, answer_len: usize,
    ) -> u32;
    fn sbpf_dynamic_symbol_name(
        file: *const u8, file_len: usize,
        st_name: u32,
        answer: *mut u64, answer_len: usize,
    ) -> u32;
    fn sbpf_symbol_table(
        file: *const u8, file_len: usize,
        answer: *mut u64, answer_len: usize,
    ) -> u32;
    fn sbpf_find_symbol(
        file: *const u8, file_len: usize,
        name: *const u8, name_len: usize,
        answer: *mut u64, answer_len: usize,
    ) -> u32;
    fn sbpf_lookup(
        keys: *const u32, keys_len: usize,
        indices: *const u32, indices_len: usize,
        kinds: *const u32, kinds_len: usize,
        starts: *const u32, starts_len: usize,
        lengths: *const u32, lengths_len: usize,
        used: u64,
        key: u32,
        answer: *mut u64, answer_len: usize,
    ) -> u32;
    fn sbpf_lookup_ascending(
        keys: *const u32, keys_len: usize,
        indices: *const u32, indices_len: usize,
        kinds: *const u32, kinds_len: usize,
        starts: *const u32, starts_len: usize,
        lengths: *const u32, lengths_len: usize,
        used: u64,
        key: u32,
        answer: *mut u64, answer_len: usize,
    ) -> u32;
    fn sbpf_index_ascending(
        keys: *const u32, keys_len: usize,
        indices: *const u32, indices_len: usize,
        used: u64,
        key: u32,
    ) -> u64;
    fn sbpf_row_ascending(keys: *const u32, keys_len: usize, used: u64, key: u32) -> u64;
}

proved! { load:
    fn sbpf_load(
        file: *const u8, file_len: usize,
        builtins: *const u32, builtins_len: usize,
        settings: u32,
        image: *mut u8, image_len: usize,
        ro: *mut u8, ro_len: usize,
        keys: *mut u32, keys_len: usize,
        indices: *mut u32, indices_len: usize,
        kinds: *mut u32, kinds_len: usize,
        starts: *mut u32, starts_len: usize,
        lengths: *mut u32, lengths_len: usize,
        answer: *mut u64, answer_len: usize,
    ) -> u32;
}

proved! { text_place:
    fn sbpf_text_place(
        lent: u64,
        offset: u64,
        start: u64,
        n: u64,
        addr: u64,
        size: u64,
        answer: *mut u64, answer_len: usize,
    ) -> u32;
}

proved! { writers:
    fn sbpf_who_wrote(
        file: *const u8, file_len: usize,
        loaded: *const u64, loaded_len: usize,
        offset: u64,
        answer: *mut u64, answer_len: usize,
    ) -> u32;
    fn sbpf_who_wrote_all(
        file: *const u8, file_len: usize,
        loaded: *const u64, loaded_len: usize,
        numbers: *mut u32, numbers_len: usize,
        answer: *mut u64, answer_len: usize,
    ) -> u32;
    fn sbpf_load_who_wrote(
        file: *const u8, file_len: usize,
        builtins: *const u32, builtins_len: usize,
        settings: u32,
        image: *mut u8, image_len: usize,
        ro: *mut u8, ro_len: usize,
        keys: *mut u32, keys_len: usize,
        indices: *mut u32, indices_len: usize,
        kinds: *mut u32, kinds_len: usize,
        starts: *mut u32, starts_len: usize,
        lengths: *mut u32, lengths_len: usize,
        offset: u64,
        answer: *mut u64, answer_len: usize,
    ) -> u32;
}

proved! { call_depth:
    fn sbpf_call_depth(
        image: *const u8, image_len: usize,
        keys: *const u32, keys_len: usize,
        indices: *const u32, indices_len: usize,
        kinds: *const u32, kinds_len: usize,
        starts: *const u32, starts_len: usize,
        lengths: *const u32, lengths_len: usize,
        loaded: *const u64, loaded_len: usize,
        work: *mut u32, work_len: usize,
        limit: u32,
        answer: *mut u64, answer_len: usize,
    ) -> u32;
    fn sbpf_load_call_depth(
        file: *const u8, file_len: usize,
        builtins: *const u32, builtins_len: usize,
        settings: u32,
        image: *mut u8, image_len: usize,
        ro: *mut u8, ro_len: usize,
        keys: *mut u32, keys_len: usize,
        indices: *mut u32, indices_len: usize,
        kinds: *mut u32, kinds_len: usize,
        starts: *mut u32, starts_len: usize,
        lengths: *mut u32, lengths_len: usize,
        work: *mut u32, work_len: usize,
        limit: u32,
        answer: *mut u64, answer_len: usize,
    ) -> u32;
}

/// Whether the library has a load.
pub const HAS_LOAD: bool = cfg!(load);
/// Whether it has the text part on its own.
pub const HAS_TEXT_PLACE: bool = cfg!(text_place);
/// Whether it can be asked who wrote a byte.
pub const HAS_WRITERS: bool = cfg!(writers);
/// Whether it can be asked how deep a profile calls.
pub const HAS_CALL_DEPTH: bool = cfg!(call_depth);
/// Whether there is a library.
pub const HAS_PORT: bool = cfg!(port);

/// The words of an answer.
pub const WORDS: usize = 24;

/// A result and the words that were written.
pub type Answer = (u32, Vec<u64>);

fn with_room(room: usize, call: impl FnOnce(*mut u64, usize) -> u32) -> Answer {
    with_words(room, |words| call(words.as_mut_ptr(), words.len()))
}

fn with_words(room: usize, call: impl FnOnce(&mut [u64]) -> u32) -> Answer {
    // what the slice held before must not show
    let mut words = vec![0xa5a5_a5a5_a5a5_a5a5; room];
    let result = call(&mut words);
    (result, words)
}

pub fn hash(name: &[u8]) -> u32 {
    unsafe { sbpf_hash(name.as_ptr(), name.len()) }
}

pub fn parse(file: &[u8], room: usize) -> Answer {
    with_room(room, |words, n| unsafe {
        sbpf_parse(file.as_ptr(), file.len(), words, n)
    })
}

pub fn symbol_table(file: &[u8], room: usize) -> Answer {
    with_room(room, |words, n| unsafe {
        sbpf_symbol_table(file.as_ptr(), file.len(), words, n)
    })
}

pub fn find_symbol(file: &[u8], name: &[u8], room: usize) -> Answer {
    with_room(room, |words, n| unsafe {
        sbpf_find_symbol(
            file.as_ptr(),
            file.len(),
            name.as_ptr(),
            name.len(),
            words,
            n,
        )
    })
}

#[derive(Clone, Copy, Debug, PartialEq, Eq)]
pub enum Question {
    SectionPlace,
    SectionName,
    SymbolName,
    DynamicSymbolName,
}

pub fn ask(question: Question, file: &[u8], number: u32, room: usize) -> Answer {
    let call = match question {
        Question::SectionPlace => sbpf_section_place,
        Question::SectionName => sbpf_section_name,
        Question::SymbolName => sbpf_symbol_name,
        Question::DynamicSymbolName => sbpf_dynamic_symbol_name,
    };
    with_room(room, |words, n| unsafe {
        call(file.as_ptr(), file.len(), number, words, n)
    })
}

/// The five columns of a table: key, index, kind, start, length.
pub type Columns = [Vec<u32>; 5];

/// By a scan, or by a binary search.
pub fn lookup(by_search: bool, t: &Columns, used: u64, key: u32, room: usize) -> Answer {
    with_room(room, |words, n| unsafe {
        look_up(by_search, t, used, key, words, n)
    })
}

/// The same into words that are lent.
pub fn lookup_into(by_search: bool, t: &Columns, used: u64, key: u32, words: &mut [u64]) -> u32 {
    unsafe { look_up(by_search, t, used, key, words.as_mut_ptr(), words.len()) }
}

unsafe fn look_up(
    by_search: bool,
    t: &Columns,
    used: u64,
    key: u32,
    words: *mut u64,
    n: usize,
) -> u32 {
    let call = if by_search {
        sbpf_lookup_ascending
    } else {
        sbpf_lookup
    };
    call(
        t[0].as_ptr(),
        t[0].len(),
        t[1].as_ptr(),
        t[1].len(),
        t[2].as_ptr(),
        t[2].len(),
        t[3].as_ptr(),
        t[3].len(),
        t[4].as_ptr(),
        t[4].len(),
        used,
        key,
        words,
        n,
    )
}

/// The index alone, by the search over two columns.
pub fn index(t: &Columns, used: u64, key: u32) -> Option<u32> {
    let (keys, indices) = (&t[0], &t[1]);
    let index = unsafe {
        sbpf_index_ascending(
            keys.as_ptr(),
            keys.len(),
            indices.as_ptr(),
            indices.len(),
            used,
            key,
        )
    };
    (index != u64::MAX).then_some(index as u32)
}

/// The row's number alone, by the search over the keys.
pub fn row(t: &Columns, used: u64, key: u32) -> Option<usize> {
    let keys = &t[0];
    let row = unsafe { sbpf_row_ascending(keys.as_ptr(), keys.len(), used, key) };
    (row != u64::MAX).then_some(row as usize)
}

/// `table` are the five columns, in the order of `Columns`.
pub fn load(
    file: &[u8],
    builtins: &[u32],
    settings: u32,
    image: &mut [u8],
    ro: &mut [u8],
    table: [&mut [u32]; 5],
    answer: &mut [u64],
) -> u32 {
    let [keys, indices, kinds, starts, lengths] = table;
    unsafe {
        sbpf_load(
            file.as_ptr(),
            file.len(),
            builtins.as_ptr(),
            builtins.len(),
            settings,
            image.as_mut_ptr(),
            image.len(),
            ro.as_mut_ptr(),
            ro.len(),
            keys.as_mut_ptr(),
            keys.len(),
            indices.as_mut_ptr(),
            indices.len(),
            kinds.as_mut_ptr(),
            kinds.len(),
            starts.as_mut_ptr(),
            starts.len(),
            lengths.as_mut_ptr(),
            lengths.len(),
            answer.as_mut_ptr(),
            answer.len(),
        )
    }
}

/// Who wrote a byte, by the words of a load's answer.
pub fn who_wrote(file: &[u8], loaded: &[u64], offset: u64, room: usize) -> Answer {
    with_words(room, |words| who_wrote_into(file, loaded, offset, words))
}

/// The same into words that are lent.
pub fn who_wrote_into(file: &[u8], loaded: &[u64], offset: u64, words: &mut [u64]) -> u32 {
    unsafe {
        sbpf_who_wrote(
            file.as_ptr(),
            file.len(),
            loaded.as_ptr(),
            loaded.len(),
            offset,
            words.as_mut_ptr(),
            words.len(),
        )
    }
}

/// Who wrote each byte, in numbers that are lent.
pub fn who_wrote_all(file: &[u8], loaded: &[u64], numbers: &mut [u32], room: usize) -> Answer {
    with_words(room, |words| {
        who_wrote_all_into(file, loaded, numbers, words)
    })
}

/// The same into words that are lent.
pub fn who_wrote_all_into(
    file: &[u8],
    loaded: &[u64],
    numbers: &mut [u32],
    words: &mut [u64],
) -> u32 {
    unsafe {
        sbpf_who_wrote_all(
            file.as_ptr(),
            file.len(),
            loaded.as_ptr(),
            loaded.len(),
            numbers.as_mut_ptr(),
            numbers.len(),
            words.as_mut_ptr(),
            words.len(),
        )
    }
}

/// A load, and who wrote a byte of its image.
#[allow(clippy::too_many_arguments)]
pub fn load_who_wrote(
    file: &[u8],
    builtins: &[u32],
    settings: u32,
    image: &mut [u8],
    ro: &mut [u8],
    table: [&mut [u32]; 5],
    offset: u64,
    answer: &mut [u64],
) -> u32 {
    let [keys, indices, kinds, starts, lengths] = table;
    unsafe {
        sbpf_load_who_wrote(
            file.as_ptr(),
            file.len(),
            builtins.as_ptr(),
            builtins.len(),
            settings,
            image.as_mut_ptr(),
            image.len(),
            ro.as_mut_ptr(),
            ro.len(),
            keys.as_mut_ptr(),
            keys.len(),
            indices.as_mut_ptr(),
            indices.len(),
            kinds.as_mut_ptr(),
            kinds.len(),
            starts.as_mut_ptr(),
            starts.len(),
            lengths.as_mut_ptr(),
            lengths.len(),
            offset,
            answer.as_mut_ptr(),
            answer.len(),
        )
    }
}

/// How deep the profile of a load calls, by the words of its answer, and what it left.
pub fn call_depth(
    image: &[u8],
    t: &Columns,
    loaded: &[u64],
    work: &mut [u32],
    limit: u32,
    room: usize,
) -> Answer {
    with_words(room, |words| {
        call_depth_into(image, t, loaded, work, limit, words)
    })
}

/// The same into words that are lent.
pub fn call_depth_into(
    image: &[u8],
    t: &Columns,
    loaded: &[u64],
    work: &mut [u32],
    limit: u32,
    words: &mut [u64],
) -> u32 {
    let [keys, indices, kinds, starts, lengths] = t;
    unsafe {
        sbpf_call_depth(
            image.as_ptr(),
            image.len(),
            keys.as_ptr(),
            keys.len(),
            indices.as_ptr(),
            indices.len(),
            kinds.as_ptr(),
            kinds.len(),
            starts.as_ptr(),
            starts.len(),
            lengths.as_ptr(),
            lengths.len(),
            loaded.as_ptr(),
            loaded.len(),
            work.as_mut_ptr(),
            work.len(),
            limit,
            words.as_mut_ptr(),
            words.len(),
        )
    }
}

/// A load, and how deep the profile calls.
#[allow(clippy::too_many_arguments)]
pub fn load_call_depth(
    file: &[u8],
    builtins: &[u32],
    settings: u32,
    image: &mut [u8],
    ro: &mut [u8],
    table: [&mut [u32]; 5],
    work: &mut [u32],
    limit: u32,
    answer: &mut [u64],
) -> u32 {
    let [keys, indices, kinds, starts, lengths] = table;
    unsafe {
        sbpf_load_call_depth(
            file.as_ptr(),
            file.len(),
            builtins.as_ptr(),
            builtins.len(),
            settings,
            image.as_mut_ptr(),
            image.len(),
            ro.as_mut_ptr(),
            ro.len(),
            keys.as_mut_ptr(),
            keys.len(),
            indices.as_mut_ptr(),
            indices.len(),
            kinds.as_mut_ptr(),
            kinds.len(),
            starts.as_mut_ptr(),
            starts.len(),
            lengths.as_mut_ptr(),
            lengths.len(),
            work.as_mut_ptr(),
            work.len(),
            limit,
            answer.as_mut_ptr(),
            answer.len(),
        )
    }
}

/// The place of the text in the lent bytes: the image if the read-only section is borrowed, else
/// the buffer with the copy.
pub fn text_place(
    lent: u64,
    offset: u64,
    start: u64,
    length: u64,
    addr: u64,
    size: u64,
    room: usize,
) -> Answer {
    with_room(room, |words, n| unsafe {
        sbpf_text_place(lent, offset, start, length, addr, size, words, n)
    })
}
