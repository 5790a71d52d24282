use super::*;

/// Version 2, two zero slots as .text at 0x100000000, entry there.
const EXAMPLE: &[u8] = include_bytes!("../../crates/loadlist/stdin");

/// Buffers that hold no zeros.
struct Held {
    bytes: [Vec<u8>; 2],
    columns: [Vec<u32>; 5],
}

impl Held {
    fn new(length: usize, rows: usize) -> Held {
        Held {
            bytes: [(); 2].map(|()| vec![0xa5; length]),
            columns: [(); 5].map(|()| vec![0xa5a5_a5a5; rows]),
        }
    }

    fn lend(&mut self) -> Lent<'_> {
        let [image, ro] = &mut self.bytes;
        let [keys, indices, kinds, starts, lengths] = &mut self.columns;
        Lent {
            image,
            ro,
            keys,
            indices,
            kinds,
            starts,
            lengths,
        }
    }

    fn all_zero(&self) -> bool {
        self.bytes.iter().flatten().all(|b| *b == 0)
            && self.columns.iter().flatten().all(|x| *x == 0)
    }
}

fn refusal(number: u32, value: u64) -> Refusal {
    Refusal {
        reason: Reason::of(number),
        value,
        name_start: 0,
        name: Vec::new(),
    }
}

/// With all settings on.
fn refused(file: &[u8], builtins: &[u32], held: &mut Held) -> Refusal {
    load(file, builtins, Settings::ALL_ON, &mut held.lend()).expect_err("the file is refused")
}

#[test]
fn the_example_is_accepted() {
    let mut held = Held::new(EXAMPLE.len() + 3, 4);
    let mut lent = held.lend();
    let a = load(EXAMPLE, &[], Settings::ALL_ON, &mut lent).expect("the file is accepted");
    let expected = Accepted {
        version: 2,
        entry: 0,
        used: 1,
        moves: 0,
        ro_copied: false,
        ro_offset: 0,
        ro_start: 64,
        ro_length: 16,
        text_addr: 0x1_0000_0000,
        text_start: 64,
        text_length: 16,
    };
    assert_eq!(a, expected);
    let entry = Row {
        index: 0,
        kind: 2,
        start: 0,
        length: 10,
    };
    assert_eq!(lookup(lent.table(), a.used, 0), Some(entry));
    assert_eq!(lookup_ascending(lent.table(), a.used, 0), Some(entry));
    assert_eq!(lookup_ascending(lent.table(), a.used, 1), None);
    assert_eq!(index_ascending(lent.table(), a.used, 0), Some(entry.index));
    assert_eq!(index_ascending(lent.table(), a.used, 1), None);
    assert_eq!(row_ascending(lent.table(), a.used, 0), Some(0));
    assert_eq!(row_ascending(lent.table(), a.used, 1), None);
    assert_eq!(row_ascending(lent.table(), 0, 0), None);
    assert_eq!(lookup(lent.table(), a.used, 1), None);
    assert_eq!(lookup(lent.table(), 0, 0), None);
    assert_eq!(lent.read_only(&a), Some(&EXAMPLE[64..80]));
    assert_eq!(lent.text(&a), Ok(&EXAMPLE[64..80]));
    assert_eq!(text_place(79, &a), Err(refusal(44, 0)));
    assert_eq!(text_place(80, &a), Ok(64..80));
    assert_eq!(&lent.image[..EXAMPLE.len()], EXAMPLE);
    assert_eq!(&lent.image[EXAMPLE.len()..], [0; 3]);
    assert!(lent.ro.iter().all(|b| *b == 0));
    assert!(lent.keys[1..].iter().all(|k| *k == 0));
}

#[test]
fn a_call_holds_the_key_that_finds_its_target() {
    // the example as version 1: at its file offset, with a call of slot 1 in slot 0
    let mut file = EXAMPLE.to_vec();
    file[24..32].copy_from_slice(&64u64.to_le_bytes());
    file[48] = 0;
    file[184..192].copy_from_slice(&64u64.to_le_bytes());
    file[64] = 0x85;
    file[65] = 0x10;
    let mut held = Held::new(file.len(), 2);
    let mut lent = held.lend();
    let a = load(&file, &[], Settings::ALL_ON, &mut lent).expect("the file is accepted");
    assert_eq!((a.version, a.entry, a.used), (1, 0, 2));
    let key = hash(&1u64.to_le_bytes());
    assert_eq!(lent.image[68..72], key.to_le_bytes());
    let found = |key| {
        let row = lookup(lent.table(), a.used, key);
        assert_eq!(lookup_ascending(lent.table(), a.used, key), row);
        assert_eq!(
            index_ascending(lent.table(), a.used, key),
            row.map(|r| r.index)
        );
        assert_eq!(
            row_ascending(lent.table(), a.used, key).map(|i| Row {
                index: lent.indices[i],
                kind: lent.kinds[i],
                start: lent.starts[i],
                length: lent.lengths[i],
            }),
            row
        );
        row.map(|row| (row.index, row.kind))
    };
    assert_eq!(found(key), Some((1, 3)));
    assert_eq!(found(hash(b"entrypoint")), Some((0, 2)));

    // a built-in of that key collides, and without version 1 the file is refused
    let mut held = Held::new(file.len(), 2);
    assert_eq!(refused(&file, &[key], &mut held), refusal(24, key as u64));
    let settings = Settings {
        v1: false,
        ..Settings::ALL_ON
    };
    let got = load(&file, &[], settings, &mut held.lend());
    assert_eq!(got, Err(refusal(34, 0)));
}

#[test]
fn an_empty_file_is_refused() {
    // slices of no elements throughout
    let mut held = Held::new(0, 0);
    assert_eq!(refused(&[], &[], &mut held), refusal(33, 0));
    assert_eq!(parse(&[]), Err(refusal(5, 0)));
    assert_eq!(lookup(held.lend().table(), 1, 0), None);
}

#[test]
fn a_refusal_leaves_zeros() {
    // the entry at the text's end
    let mut file = EXAMPLE.to_vec();
    file[24] = 16;
    let mut held = Held::new(file.len() + 5, 7);
    assert_eq!(refused(&file, &[], &mut held), refusal(20, 0));
    assert!(held.all_zero());

    let mut held = Held::new(file.len() - 1, 7);
    assert_eq!(refused(EXAMPLE, &[], &mut held), refusal(41, 0));
    assert!(held.all_zero());

    let mut held = Held::new(file.len(), 7);
    assert_eq!(refused(EXAMPLE, &[3, 3], &mut held), refusal(42, 0));
    assert!(held.all_zero());
}

#[test]
fn a_table_without_rows_is_full() {
    let mut held = Held::new(EXAMPLE.len(), 0);
    assert_eq!(refused(EXAMPLE, &[], &mut held), refusal(43, 0));
    // the shortest column decides
    let mut held = Held::new(EXAMPLE.len(), 4);
    held.columns[3].clear();
    assert_eq!(refused(EXAMPLE, &[], &mut held), refusal(43, 0));
    assert!(held.all_zero());
}

#[test]
fn the_readers_answer_parts_of_the_file() {
    let layout = parse(EXAMPLE).expect("the file is parsed");
    let at = |start, count| Entries { start, count };
    assert_eq!(layout.section_headers, at(104, 3));
    assert_eq!(layout.program_headers, at(0, 0));
    assert_eq!(layout.shstrtab, 104 + 2 * 64);
    assert_eq!(layout.symtab, 0);
    assert_eq!(section(EXAMPLE, 1), Ok(&EXAMPLE[64..80]));
    assert_eq!(section(EXAMPLE, 3), Err(refusal(45, 0)));
    assert_eq!(section(EXAMPLE, 0), Err(refusal(46, 0)));
    assert_eq!(section_name(EXAMPLE, 1), Ok(&b".text"[..]));
    assert_eq!(symbol_name(EXAMPLE, 1), Err(refusal(12, 0)));
    assert_eq!(dynamic_symbol_name(EXAMPLE, 1), Err(refusal(13, 0)));
    assert_eq!(symbol_table(EXAMPLE), Ok(at(0, 0)));
}

#[test]
fn relocations_bring_addends() {
    let file = include_bytes!("../../examples/addends.so");
    let layout = parse(file).expect("the file is parsed");
    let at = |start, count| Entries { start, count };
    assert_eq!(layout.dynamic_relocations, at(0, 0));
    assert_eq!(layout.dynamic_relas, at(0x1a8, 4));
    let mut held = Held::new(file.len(), 4);
    let word = |image: &[u8], at: usize| u32::from_le_bytes(image[at..at + 4].try_into().unwrap());
    load(file, &[], Settings::ALL_ON, &mut held.lend()).expect("the file is accepted");
    let image = &held.bytes[0];
    // message stands at 0xd8: plus 4, in the two halves of the text's first instruction
    assert_eq!([word(image, 0xb4), word(image, 0xbc)], [0xdc, 1]);
    // the address of the local table, in .data.rel.ro
    assert_eq!([word(image, 0xf8), word(image, 0xfc)], [0xe8, 1]);
    // an addend of -1 for the type 8 there
    let mut negative = file.to_vec();
    negative[0x1b8..0x1c0].fill(0xff);
    assert_eq!(refused(&negative, &[], &mut held), refusal(47, 0));
    assert!(held.all_zero());
}

/// The bytes from one offset up to another, and who wrote them.
type Run = (Range<usize>, Writer);

/// The bytes of a file that others than the file wrote, in runs.
fn runs(file: &[u8], a: &Accepted) -> Vec<Run> {
    // numbers that hold no zeros, two more than there are bytes
    let mut numbers = vec![0xa5a5_a5a5; file.len() + 2];
    assert_eq!(who_wrote_all(file, a, &mut numbers), Ok(()));
    assert_eq!(numbers[file.len()..], [0, 0]);
    let mut runs: Vec<Run> = Vec::new();
    for (at, number) in numbers[..file.len()].iter().enumerate() {
        let writer = Writer::of_number(*number);
        assert_eq!(who_wrote(file, a, at), Ok(writer));
        match runs.last_mut() {
            Some((run, by)) if *by == writer => run.end = at + 1,
            _ => runs.push((at..at + 1, writer)),
        }
    }
    runs.retain(|(_, writer)| *writer != Writer::File);
    runs
}

/// An accepted file, and its image.
fn accepted(file: &[u8]) -> (Accepted, Vec<u8>) {
    let mut held = Held::new(file.len(), 8);
    let a = load(file, &[], Settings::ALL_ON, &mut held.lend()).expect("the file is accepted");
    let [image, _] = held.bytes;
    (a, image)
}

#[test]
fn calls_and_relocations_wrote_their_bytes() {
    use Writer::{Call, File, Relocation};
    let file = include_bytes!("../../examples/functions.so");
    let (a, image) = accepted(file);
    // the text starts at 0xb0; relocation 0 is of type 1 at 0xb0, relocation 1 of type 10 at 0xc8, where the
    // immediate is -1; the slots 2, 4, 6 and 9 are local calls
    let by = vec![
        (0xb4..0xb8, Relocation(0)),
        (0xbc..0xc0, Relocation(0)),
        (0xc4..0xc8, Call(2)),
        (0xcc..0xd0, Relocation(1)),
        (0xd4..0xd8, Call(4)),
        (0xe4..0xe8, Call(6)),
        (0xfc..0x100, Call(9)),
    ];
    assert_eq!(runs(file, &a), by);
    // what no run has is the file's
    let written = |at: &usize| by.iter().any(|(run, _)| run.contains(at));
    for at in (0..file.len()).filter(|at| !written(at)) {
        assert_eq!((who_wrote(file, &a, at), image[at]), (Ok(File), file[at]));
    }
    // from the file's length on there is no byte
    for at in [file.len(), file.len() + 7, usize::MAX] {
        assert_eq!(who_wrote(file, &a, at), Err(refusal(45, 0)));
    }
}

#[test]
fn the_last_writer_counts() {
    use Writer::Relocation;
    let file = include_bytes!("../../examples/addends.so");
    let (a, image) = accepted(file);
    // relocation 0, of type 8, writes the eight bytes from 0xf8 on; relocation 2, of type 1 at 0xf0, the halves
    // at 0xf4 and 0xfc: there it writes the 1 that stands there already
    let by = vec![
        (0xb4..0xb8, Relocation(1)),
        (0xbc..0xc0, Relocation(1)),
        (0xc4..0xc8, Relocation(3)),
        (0xf4..0xf8, Relocation(2)),
        (0xf8..0xfc, Relocation(0)),
        (0xfc..0x100, Relocation(2)),
    ];
    assert_eq!(runs(file, &a), by);
    assert_eq!(image[0xfc..0x100], [1, 0, 0, 0]);
}

#[test]
fn who_wrote_refuses() {
    let file = include_bytes!("../../examples/functions.so");
    let (a, _) = accepted(file);
    // a number too few
    let mut numbers = vec![0xa5a5_a5a5; file.len() - 1];
    assert_eq!(who_wrote_all(file, &a, &mut numbers), Err(refusal(41, 0)));
    assert!(numbers.iter().all(|n| *n == 0));
    // answers that no load of the file gave: its text elsewhere, and of another file
    let outside = Accepted {
        text_start: file.len() - a.text_length + 1,
        ..a
    };
    for (file, a, number) in [
        (&file[..], outside, 33),
        (&[0; 600], a, 1),
        (&[0; 60], a, 33),
    ] {
        let mut numbers = vec![0xa5a5_a5a5; file.len()];
        assert_eq!(who_wrote(file, &a, 0), Err(refusal(number, 0)));
        assert_eq!(
            who_wrote_all(file, &a, &mut numbers),
            Err(refusal(number, 0))
        );
        assert!(numbers.iter().all(|n| *n == 0));
    }
}

#[test]
fn a_load_tells_who_wrote_a_byte() {
    let file = include_bytes!("../../examples/functions.so");
    let mut plain = Held::new(file.len() + 3, 8);
    let a = load(file, &[], Settings::ALL_ON, &mut plain.lend()).expect("the file is accepted");
    let mut held = Held::new(file.len() + 3, 8);
    let mut ask = |at| {
        let answer = load_who_wrote(file, &[], Settings::ALL_ON, &mut held.lend(), at);
        // whatever comes of the question, the load leaves what it leaves alone
        assert_eq!(held.bytes, plain.bytes);
        assert_eq!(held.columns, plain.columns);
        answer
    };
    assert_eq!(ask(0xb3), Ok((a, Ok(Writer::File))));
    assert_eq!(ask(0xb4), Ok((a, Ok(Writer::Relocation(0)))));
    assert_eq!(ask(0xcf), Ok((a, Ok(Writer::Relocation(1)))));
    assert_eq!(ask(0xff), Ok((a, Ok(Writer::Call(9)))));
    // the image that is lent is longer than the file
    assert_eq!(ask(file.len()), Ok((a, Err(refusal(45, 0)))));

    // a load that is refused, whatever byte is asked for
    let unresolved = include_bytes!("../../examples/unresolved.so");
    for at in [0, unresolved.len()] {
        let mut held = Held::new(unresolved.len(), 8);
        let refused = load_who_wrote(unresolved, &[], Settings::ALL_ON, &mut held.lend(), at);
        let refused = refused.expect_err("the file is refused");
        assert_eq!(
            (refused.number(), &refused.name[..]),
            (22, &b"crane_alarm"[..])
        );
        assert!(held.all_zero());
    }
}

/// The example as version 2 with these slots.
fn with_slots(slots: [[u8; 8]; 2]) -> Vec<u8> {
    let mut file = EXAMPLE.to_vec();
    file[64..80].copy_from_slice(&slots.concat());
    file
}

/// A call of another slot, as far behind the one behind it.
fn call(behind: i32) -> [u8; 8] {
    let mut slot = [0x85, 0x10, 0, 0, 0, 0, 0, 0];
    slot[4..].copy_from_slice(&behind.to_le_bytes());
    slot
}

#[test]
fn depths_are_told() {
    let exit = [0x95, 0, 0, 0, 0, 0, 0, 0];
    // slot 0 calls slot 1; slot 1 is left, or calls slot 0
    for (slots, limit, expected) in [
        ([exit, exit], 1, Ok(1)),
        ([call(0), exit], 2, Ok(2)),
        ([call(0), exit], 0, Ok(2)),
        ([call(0), exit], 1, Err(refusal(51, 2))),
        ([call(0), call(-2)], 1, Err(refusal(50, 0))),
    ] {
        let file = with_slots(slots);
        let mut plain = Held::new(file.len(), 4);
        let a = load(&file, &[], Settings::ALL_ON, &mut plain.lend()).expect("it is accepted");
        let mut work = [0xa5a5_a5a5; 4];
        let lent = plain.lend();
        let asked = call_depth(lent.image, lent.table(), &a, &mut work, limit);
        assert_eq!(asked, expected);
        let short = call_depth(lent.image, lent.table(), &a, &mut work[..3], limit);
        assert_eq!(short, Err(refusal(41, 0)));

        // with the load, which leaves what it leaves alone, also behind a refusal
        let mut held = Held::new(file.len(), 4);
        let mut ask = |work: &mut [u32]| {
            let lent = &mut held.lend();
            load_call_depth(&file, &[], Settings::ALL_ON, lent, work, limit)
        };
        assert_eq!(ask(&mut work[..3]), Ok((a, Err(refusal(41, 0)))));
        assert_eq!(ask(&mut work), Ok((a, expected)));
        assert_eq!(held.bytes, plain.bytes);
        assert_eq!(held.columns, plain.columns);
    }

    // a load that is refused, with 41 too
    let file = with_slots([exit, exit]);
    let mut held = Held::new(file.len() - 1, 4);
    let mut work = [0; 4];
    let lent = &mut held.lend();
    let refused = load_call_depth(&file, &[], Settings::ALL_ON, lent, &mut work, 64);
    assert_eq!(refused, Err(refusal(41, 0)));
    assert!(held.all_zero());
    // an answer that no load has given
    let mut held = Held::new(file.len(), 4);
    let mut lent = held.lend();
    let a = load(&file, &[], Settings::ALL_ON, &mut lent).expect("it is accepted");
    let other = Accepted { entry: 1, ..a };
    let asked = call_depth(lent.image, lent.table(), &other, &mut work, 64);
    assert_eq!(asked, Err(refusal(33, 0)));
}

/// The names of the numbers 0 to 255, as the library gives them.
fn names() -> Vec<(u32, String)> {
    let named = |n| refusal_name(n).map(|name| (n, name));
    (0..=255).filter_map(named).collect()
}

#[test]
fn symbols_are_found_by_their_names() {
    let file = include_bytes!("../../examples/names_gnu.so");
    assert_eq!(find_symbol(file, b"start_lift"), Ok(Some(6)));
    assert_eq!(find_symbol(file, b"brake"), Ok(Some(8)));
    assert_eq!(find_symbol(file, b"start_lif"), Ok(None));
    assert_eq!(find_symbol(file, b""), Ok(None));
    let layout = parse(file).expect("the file is parsed");
    assert_eq!(layout.hash_table, 0xf0);
    // another count of chains, which stands behind that of the buckets
    let mut bad = file.to_vec();
    bad[0xf4] += 1;
    assert_eq!(find_symbol(&bad, b"brake"), Err(refusal(48, 0)));
    // a file without a table, and one that is refused
    assert_eq!(find_symbol(EXAMPLE, b"brake"), Err(refusal(48, 0)));
    assert_eq!(find_symbol(b"", b""), Err(refusal(5, 0)));
}

#[test]
fn reasons_have_the_names_of_the_library() {
    for number in 0..=255 {
        let reason = Reason::of(number);
        assert_eq!(reason.number(), number);
        match refusal_name(number) {
            Some(name) => assert_eq!(reason.name(), name),
            None => assert_eq!(reason, Reason::Unknown(number)),
        }
    }
    assert_eq!(refusal_name(u32::MAX), None);
}

#[test]
fn the_header_has_the_names_of_the_library() {
    let header = include_str!("../../include/sbpf.h");
    let constant = |line: &str| {
        let (name, rest) = line.trim().strip_prefix("SBPF_")?.split_once(" = ")?;
        let number = rest.split_once(',')?.0.parse().ok()?;
        // other constants have capitals only
        let refusal = name.contains(|c: char| c.is_lowercase());
        refusal.then(|| (number, name.to_owned()))
    };
    let constants: Vec<(u32, String)> = header.lines().filter_map(constant).collect();
    assert_eq!(constants, names());
}

#[test]
fn a_name_is_cut_to_its_room() {
    for room in 0..20 {
        let mut name = vec![0xa5; room];
        let n = unsafe { c::sbpf_refusal_name(7, name.as_mut_ptr(), room) };
        assert_eq!(n, 7);
        let whole = b"Overlap\0\0\0\0\0\0\0\0\0\0\0\0\0";
        assert_eq!(name, whole[..room]);
    }
}

#[test]
fn refusals_are_told_in_words() {
    let unresolved = include_bytes!("../../examples/unresolved.so");
    let mut held = Held::new(unresolved.len(), 4);
    let refusal = refused(unresolved, &[], &mut held);
    assert_eq!(refusal.name_start, 300);
    assert_eq!(
        refusal.to_string(),
        "22 UnresolvedSymbol at file offset 176: \"crane_alarm\""
    );

    let told = |number, words| Refusal::new(number, words, b"ab\xffc").to_string();
    assert_eq!(told(1, [0, 0, 0]), "1 InvalidFileHeader");
    assert_eq!(told(4, [0, 1, 2]), "4 StringTooLong: \"b\u{fffd}\"");
    assert_eq!(told(49, [0, 1, 2]), "49 StringUnterminated: \"b\u{fffd}\"");
    assert_eq!(
        told(22, [0, 0, 0]),
        "22 UnresolvedSymbol at file offset 0: \"\""
    );
    assert_eq!(told(23, [3, 0, 0]), "23 RelativeJumpOutOfBounds in slot 3");
    assert_eq!(told(24, [255, 0, 0]), "24 SymbolHashCollision of key 0xff");
    assert_eq!(
        told(28, [0, 0, 4]),
        "28 WritableSectionNotSupported: \"ab\u{fffd}c\""
    );
    assert_eq!(told(30, [0, 0, 0]), "30 UnknownRelocation of type 0");
    assert_eq!(
        told(32, [5, 0, 0]),
        "32 UnknownSymbol of index or st_name 5"
    );
    assert_eq!(told(43, [256, 0, 0]), "43 TableFull with 256 rows");
    // what no load answers: a number without a name, a name outside the file
    assert_eq!(told(99, [7, 0, 0]), "99 unknown with value 7");
    assert_eq!(
        told(u32::MAX, [0, 3, 1]),
        "4294967295 unknown with value 0: \"c\""
    );
    for [start, length] in [[4, 1], [5, 0], [u64::MAX, u64::MAX], [1, u64::MAX]] {
        assert_eq!(
            told(28, [0, start, length]),
            "28 WritableSectionNotSupported: \"\""
        );
    }
}

#[test]
fn published_hashes() {
    assert_eq!(hash(b""), 0);
    assert_eq!(hash(b"test"), 0xba6b_d213);
    assert_eq!(hash(b"entrypoint"), 0x71e3_cf81);
}
