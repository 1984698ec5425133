//! Short files that are refused, listing files that are not shortened, and wrong command lines.

use crate::folder::Folder;
use crate::short::{with_first_rule, FIRST_RULE};

/// The first rule's short file with these bytes at these places, the places in order.
fn edited(edits: &[(usize, u8)]) -> Vec<u8> {
    let mut file = FIRST_RULE.to_vec();
    edits.iter().for_each(|(at, byte)| file[*at] = *byte);
    file
}

/// Commands that read a short file, and write where they are told.
const READERS: [&str; 5] = [
    "lengthen bad.short -o kept",
    "pack bad.short --short -o kept",
    "save bad.short --short -o kept",
    "show bad.short --short",
    "follow bad.short --short",
];

/// No command takes these bytes as a short file, and none writes anything: they are refused with
/// this number, and the lines after it are these.
fn is_refused(folder: &Folder, file: &[u8], number: i32, lines: &[&str]) {
    folder.write("bad.short", file);
    for words in READERS {
        folder.write("kept", "as it was");
        let said = folder.beetle(words);
        let printed = match words.starts_with("pack") {
            true => format!("{number}\n"),
            false => String::new(),
        };
        assert_eq!((said.status, said.output), (1, printed), "{words}");
        let mut error = said.error.lines();
        let first = error.next().unwrap_or_default();
        let expected = format!("beetle: refused with {number}: ");
        assert!(first.starts_with(&expected), "{words}: {first}");
        assert_eq!(error.collect::<Vec<_>>(), lines, "{words}");
        assert_eq!(folder.read("kept"), b"as it was", "{words}");
    }
}

#[test]
fn cut_and_lengthened_short_files() {
    let folder = Folder::new("short_cut");
    for length in 0..FIRST_RULE.len() {
        let line = match length {
            0..12 => format!("  it has {length} bytes, but n, m and base alone have 12"),
            _ => format!("  it has {length} bytes, but n = 4 and m = 2 ask for 24"),
        };
        is_refused(&folder, &FIRST_RULE[..length], -4119, &[&line]);
    }
    let longer = [&FIRST_RULE[..], &[0]].concat();
    let line = "  it has 25 bytes, but n = 4 and m = 2 ask for 24";
    is_refused(&folder, &longer, -4119, &[line]);
}

#[test]
fn counts_that_do_not_fit() {
    let folder = Folder::new("short_counts");
    let fewer = "  m is 1, but 2 of its 4 items take an operand";
    let too_long = "  it has 24 bytes, but n = 4 and m = 1 ask for 20";
    is_refused(&folder, &edited(&[(4, 1)]), -4119, &[fewer, too_long]);
    is_refused(&folder, &edited(&[(4, 1)])[..20], -4119, &[fewer]);
    // m + 2^30: as a number of 32 bits the length would be right
    let wide = [
        "  m is 1073741826, but 2 of its 4 items take an operand",
        "  it has 24 bytes, but n = 4 and m = 1073741826 ask for 4294967320",
    ];
    is_refused(&folder, &edited(&[(7, 0x40)]), -4119, &wide);
    // a byte that is no kind takes no operand, and m is judged before the kinds
    let line = "  m is 2, but 1 of its 4 items take an operand";
    is_refused(&folder, &edited(&[(13, 0x53)]), -4119, &[line]);
    // n is judged before m
    is_refused(&folder, &edited(&[(0, 0), (4, 1)]), -4106, &[]);
    is_refused(&folder, &edited(&[(0, 1), (1, 0x10)]), -4106, &[]);
}

#[test]
fn items_that_do_not_fit() {
    let folder = Folder::new("short_items");
    is_refused(&folder, &edited(&[(14, 0x53)]), -4107, &[]);
    is_refused(&folder, &edited(&[(13, 0x42), (20, 4)]), -4109, &[]);
    // the lowest item is told
    let both = edited(&[(12, 0x42), (16, 4), (14, 0)]);
    is_refused(&folder, &both, -4109, &[]);
}

#[test]
fn bases_are_judged_where_cells_are_made() {
    let folder = with_first_rule("short_bases");
    for (base, number) in [(0x12, -4104), (0x0C, -4110)] {
        folder.write("rule.short", edited(&[(8, base)]));
        folder.done("lengthen rule.short -o back.lst");
        folder.done("shorten back.lst -o back.short");
        assert_eq!(folder.read("back.short"), edited(&[(8, base)]));
        for words in ["pack rule.short --short", "pack back.lst"] {
            let said = folder.beetle(words);
            let printed = format!("{number}\n");
            assert_eq!((said.status, said.output), (1, printed), "{words}");
        }
    }
    folder.write("rule.short", []);
    let said = folder.beetle("pack rule.short --short --order 2");
    assert_eq!((said.status, said.output.as_str()), (1, "-4102\n"));
}

#[test]
fn listing_files_that_are_not_shortened() {
    let folder = with_first_rule("short_refused");
    let file = folder.read("rule.lst");
    let rows: [(&[(usize, u8)], i32); 5] = [
        (&[(0, 3)], -4106),
        (&[(0, 0)], -4106),
        (&[(8, 0x53)], -4107),
        (&[(20, 1)], -4108),
        (&[(8, 0x42), (12, 4)], -4109),
    ];
    for (edits, number) in rows {
        let mut bad = file.clone();
        edits.iter().for_each(|(at, byte)| bad[*at] = *byte);
        folder.write("bad.lst", bad);
        folder.write("kept", "as it was");
        let said = folder.beetle("shorten bad.lst -o kept");
        assert_eq!((said.status, said.output.as_str()), (1, ""));
        let expected = format!("beetle: refused with {number}: ");
        assert!(said.error.starts_with(&expected), "{said:?}");
        assert_eq!(folder.read("kept"), b"as it was");
    }
    for (text, number) in [("", "-4106"), ("base 12h DUP", "-4104")] {
        folder.write("bad.txt", text);
        let said = folder.beetle("assemble bad.txt --short -o kept");
        assert_eq!((said.status, said.output.as_str()), (1, ""));
        assert!(said.error.contains(number), "{said:?}");
        assert_eq!(folder.read("kept"), b"as it was");
    }
}

/// A file is never tried as the other one.
#[test]
fn a_file_of_the_other_kind_is_refused() {
    let folder = with_first_rule("short_other");
    for command in ["pack", "show", "follow", "save -o x.mod"] {
        let rows = [("rule.lst --short", "-4119"), ("rule.short", "-4106")];
        for (words, number) in rows {
            let said = folder.beetle(&format!("{command} {words}"));
            let expected = format!("refused with {number}: ");
            assert_eq!(said.status, 1, "{command} {words}");
            assert!(said.error.contains(&expected), "{command} {words}");
        }
    }
}

#[test]
fn wrong_command_lines() {
    let folder = Folder::new("short_usage");
    let rows = [
        ("shorten", "RULE.lst is missing"),
        ("shorten a", "-o FILE is missing"),
        ("shorten a b -o c", "one file too many: b"),
        ("shorten a -o b --short", "unknown option --short"),
        ("shorten a -o b --order 1", "unknown option --order"),
        ("lengthen", "RULE.short is missing"),
        ("lengthen a", "-o FILE is missing"),
        ("lengthen a -o b --short", "unknown option --short"),
        ("load a --short", "unknown option --short"),
        ("run a --short", "unknown option --short"),
        ("pack a --shorter", "unknown option --shorter"),
    ];
    for (words, error) in rows {
        let said = folder.beetle(words);
        assert_eq!(said.status, 2, "{words}");
        assert!(said.error.contains(error), "{words}: {said:?}");
    }
    let said = folder.beetle("shorten never.lst -o never.short");
    assert_eq!(said.status, 1);
    assert!(said.error.contains("never.lst: "), "{said:?}");
}
