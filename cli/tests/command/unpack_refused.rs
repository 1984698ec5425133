//! Images and modules that no listing packs to, bases and files that do not fit, and wrong command
//! lines.

use crate::folder::Folder;
use crate::short::with_first_rule;

/// The command is refused with this number and its meaning, prints nothing else and leaves `kept`.
fn is_refused(folder: &Folder, words: &str, number: i32) {
    folder.write("kept", "as it was");
    let said = folder.beetle(words);
    assert_eq!((said.status, said.output.as_str()), (1, ""), "{words}");
    let meaning = match number {
        -4116 => "no listing packs to this image at this base and in this byte order\n",
        _ => "",
    };
    let expected = format!("beetle: refused with {number}: {meaning}");
    assert!(said.error.starts_with(&expected), "{words}: {said:?}");
    assert_eq!(said.error.lines().count(), 1, "{words}: {said:?}");
    assert_eq!(folder.read("kept"), b"as it was", "{words}");
}

/// The bytes of cells in a byte order.
fn bytes(order: u8, cells: &[u32]) -> Vec<u8> {
    let turned = |cell: &u32| match order {
        0 => cell.to_le_bytes(),
        _ => cell.to_be_bytes(),
    };
    cells.iter().flat_map(turned).collect()
}

/// The file of a module in a byte order.
fn module(order: u8, cells: &[u32]) -> Vec<u8> {
    let head = [b"BEETLE\0".as_slice(), &[order]].concat();
    let count = bytes(order, &[cells.len() as u32]);
    [head, count, bytes(order, cells)].concat()
}

/// As cells and as a module, in both byte orders, at 10h.
fn packs_to_no_listing(folder: &Folder, cells: &[u32]) {
    for order in [0, 1] {
        folder.write("cells.bin", bytes(order, cells));
        folder.write("cells.mod", module(order, cells));
        let unpack = format!("unpack cells.bin --base 10h -o kept --order {order}");
        is_refused(folder, &unpack, -4116);
        is_refused(folder, &format!("{unpack} --short"), -4116);
        is_refused(folder, "show cells.mod --base 10h", -4116);
        is_refused(folder, "show cells.mod --base 10h --order 1", -4116);
    }
}

/// Each beside an image that a listing packs to, which the damage makes of it.
#[test]
fn damaged_images() {
    let folder = Folder::new("unpack_damaged");
    let rows: [(&str, &[u32], &[u32]); 11] = [
        ("+ HALT", &[0x551E], &[0x5500_1E00]),
        ("+ HALT", &[0x551E], &[0x0055_001E]),
        ("+ HALT", &[0x551E], &[0x1E, 0x55]),
        ("+ HALT", &[0x551E], &[0x561E]),
        ("+ HALT", &[0x551E], &[0x551E, 0]),
        ("2", &[0x0253], &[0x52, 2]),
        ("128", &[0x8053], &[0x52, 0x80]),
        ("8388608", &[0x52, 0x80_0000], &[0x52]),
        (
            "self: CALL self HALT",
            &[0xFFFF_FF49, 0x55],
            &[0x5548, 0x10],
        ),
        (
            "DUP BRANCH end end: HALT",
            &[0x4301, 0x55],
            &[0x0001_4301, 0x55],
        ),
        (
            "DUP DUP DUP BRANCH end end: HALT",
            &[0x4201_0101, 0x18, 0x55],
            &[0x4201_0101, 0x19, 0x55],
        ),
    ];
    for (text, good, damaged) in rows {
        folder.rule(text);
        folder.write("cells.bin", bytes(0, good));
        folder.done("unpack cells.bin --base 10h -o back.lst");
        assert_eq!(folder.read("back.lst"), folder.read("rule.lst"), "{text}");
        packs_to_no_listing(&folder, damaged);
    }
    packs_to_no_listing(&folder, &[]);
    packs_to_no_listing(&folder, &[0]);
    packs_to_no_listing(&folder, &[0xFFFF_FFFF]);
}

/// So many items at most, four in a cell.
#[test]
fn the_most_items() {
    let folder = Folder::new("unpack_most");
    let cells = [0x0101_0101; 1024];
    folder.write("cells.bin", bytes(0, &cells));
    let told = folder.done("unpack cells.bin --base 10h -o made.lst");
    assert_eq!(
        told,
        "made.lst: 4096 items, base 10h, packs to 1024 cells\n"
    );
    packs_to_no_listing(&folder, &[cells.as_slice(), &[0x01]].concat());
}

/// The first rule's cells hold one literal each, then two items: what is cut behind a cell is the
/// image of what is left.
#[test]
fn cut_images() {
    let folder = with_first_rule("unpack_cut");
    folder.done("pack rule.lst -o cells.bin");
    let image = folder.read("cells.bin");
    for length in 0..image.len() {
        folder.write("cut.bin", &image[..length]);
        let words = "unpack cut.bin --base 10h -o kept";
        match length {
            4 | 8 => {
                let items = length / 4;
                let told = format!("kept: {items} items, base 10h, packs to {items} cells\n");
                assert_eq!(folder.done(words), told);
            }
            _ => is_refused(&folder, words, -4116),
        }
    }
}

/// Judged in this order, before the cells are: byte order, base, base and length.
#[test]
fn bases_and_byte_orders() {
    let folder = with_first_rule("unpack_bases");
    folder.done("pack rule.lst -o good.bin");
    folder.write("bad.bin", [0; 12]);
    folder.write("bad.mod", module(0, &[0; 3]));
    let rows = [
        ("--base 12h --order 2", -4102),
        ("--base 10h --order 255", -4102),
        ("--base 12h", -4104),
        ("--base 0Eh", -4104),
        ("--base 0Ch", -4110),
        ("--base 0", -4110),
        ("--base 0FFFFF8h", -4110),
        ("--base 0FFFFFFFCh", -4110),
    ];
    for (options, number) in rows {
        for name in ["good", "bad"] {
            let words = format!("unpack {name}.bin {options} -o kept");
            is_refused(&folder, &words, number);
        }
        for name in ["rule", "bad"] {
            is_refused(&folder, &format!("show {name}.mod {options}"), number);
        }
    }
    for last in ["unpack good.bin -o kept", "show rule.mod"] {
        folder.done(&format!("{last} --base 0FFFFF4h"));
    }
    // the file of a module is judged before its base, its byte order before the file
    folder.write("none.mod", "BEETLE");
    is_refused(&folder, "show none.mod --base 12h", -2);
    is_refused(&folder, "show none.mod --base 12h --order 2", -4102);
}

/// What the file is, the options say; it is never tried as another.
#[test]
fn files_of_another_kind() {
    let folder = with_first_rule("unpack_other_files");
    folder.done("pack rule.lst -o cells.bin");
    let rows = [
        ("show rule.lst --base 10h", -2),
        ("show rule.short --base 10h", -2),
        ("show cells.bin --base 10h", -2),
        ("show rule.mod", -4106),
        ("show rule.mod --short", -4106),
        ("unpack rule.mod --base 10h -o kept", -4116),
        ("unpack rule.lst --base 10h -o kept", -4116),
        ("unpack rule.short --base 10h -o kept", -4116),
        ("unpack cells.bin --base 10h -o kept --order 1", -4116),
    ];
    for (words, number) in rows {
        is_refused(&folder, words, number);
    }
}

#[test]
fn cut_modules() {
    let folder = with_first_rule("unpack_cut_modules");
    let file = folder.read("rule.mod");
    for length in 0..file.len() {
        folder.write("cut.mod", &file[..length]);
        let number = if length < 8 { -2 } else { -4103 };
        is_refused(&folder, "show cut.mod --base 10h", number);
    }
}

#[test]
fn wrong_command_lines() {
    let folder = Folder::new("unpack_usage");
    let rows = [
        ("unpack", "CELLS.bin is missing"),
        ("unpack a", "--base ADDRESS is missing"),
        ("unpack a -o b", "--base ADDRESS is missing"),
        ("unpack a --base 10h --short", "--short is for -o RULE.lst"),
        ("unpack a b --base 10h -o c", "one file too many: b"),
        ("unpack a --base", "--base wants a value"),
        (
            "unpack a --base b -o c",
            "--base wants 0 to 4294967295, not 'b'",
        ),
        (
            "unpack a --base 10h --base 10h -o b",
            "--base is given twice",
        ),
        ("unpack a --address 10h -o b", "unknown option --address"),
        ("show --base 10h", "RULE.lst or MODULE is missing"),
        ("show a --base b", "--base wants 0 to 4294967295, not 'b'"),
        ("show a --base 10h --short", "not both"),
        ("pack a --base 10h", "unknown option --base"),
        ("load a --base 10h", "unknown option --base"),
    ];
    for (words, error) in rows {
        let said = folder.beetle(words);
        assert_eq!(said.status, 2, "{words}");
        assert!(said.error.contains(error), "{words}: {said:?}");
    }
    for words in ["show never --base 10h", "unpack never --base 10h -o x"] {
        let said = folder.beetle(words);
        assert_eq!(said.status, 1, "{words}");
        assert!(said.error.contains("never: "), "{words}: {said:?}");
    }
}
