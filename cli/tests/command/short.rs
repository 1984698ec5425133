//! Short files: there and back, and in every command that takes a listing file.

use crate::examples::{example, names};
use crate::folder::Folder;

/// The short file of `2 3 + HALT`: n, m and base, the kinds, and the operands of both literals.
#[rustfmt::skip]
pub const FIRST_RULE: [u8; 24] = [
    4, 0, 0, 0, 2, 0, 0, 0, 0x10, 0, 0, 0,
    0x52, 0x52, 0x1E, 0x55,
    2, 0, 0, 0, 3, 0, 0, 0,
];

/// A folder with the first rule as `rule.lst` and as `rule.short`.
pub fn with_first_rule(test: &str) -> Folder {
    let folder = Folder::new(test);
    folder.rule("2 3 + HALT");
    folder.write("rule.short", FIRST_RULE);
    folder
}

#[test]
fn what_was_done_is_told() {
    let folder = with_first_rule("short_told");
    assert_eq!(
        folder.done("shorten rule.lst -o made.short"),
        "made.short: 4 items, 2 operands, 24 bytes, 28 before\n"
    );
    assert_eq!(folder.read("made.short"), FIRST_RULE);
    assert_eq!(
        folder.done("lengthen rule.short -o made.lst"),
        "made.lst: 4 items, 2 operands, 28 bytes, 24 before\n"
    );
    assert_eq!(folder.read("made.lst"), folder.read("rule.lst"));
    assert_eq!(
        folder.done("assemble rule.txt --short -o made.short"),
        "made.short: 4 items, base 10h, packs to 3 cells\n"
    );
    assert_eq!(folder.read("made.short"), FIRST_RULE);
}

#[test]
fn every_example_there_and_back() {
    let folder = Folder::new("short_examples");
    for name in names() {
        folder.rule(&example(&format!("{name}.txt")));
        folder.done("shorten rule.lst -o rule.short");
        folder.done("lengthen rule.short -o back.lst");
        folder.done("shorten back.lst -o back.short");
        folder.done("assemble rule.txt -o assembled.short --short");
        let (long, short) = (folder.read("rule.lst"), folder.read("rule.short"));
        assert!(short.len() < long.len(), "{name}");
        assert_eq!(folder.read("back.lst"), long, "{name}");
        assert_eq!(folder.read("back.short"), short, "{name}");
        assert_eq!(folder.read("assembled.short"), short, "{name}");
    }
}

/// The command prints the same of `rule.lst` and, with `--short`, of `rule.short`.
fn prints_the_same(folder: &Folder, words: &str) {
    let short = words.replace("rule.lst", "rule.short --short");
    let printed = folder.done(&short).replace("rule.short", "rule.lst");
    assert_eq!(printed, folder.done(words), "{words}");
}

#[test]
fn each_command_takes_a_short_file() {
    let folder = Folder::new("short_commands");
    for name in names() {
        folder.rule(&example(&format!("{name}.txt")));
        folder.done("shorten rule.lst -o rule.short");
        for order in ["0", "1"] {
            prints_the_same(&folder, &format!("show rule.lst --order {order}"));
            prints_the_same(&folder, &format!("pack rule.lst --order {order}"));
            let words = format!("follow rule.lst --beside --table code --order {order}");
            prints_the_same(&folder, &words);
            for (command, target) in [("pack", "made.bin"), ("save", "made.mod")] {
                let made = |file: &str| {
                    folder.write(target, "");
                    folder.done(&format!("{command} {file} -o {target} --order {order}"));
                    folder.read(target)
                };
                let of_short = made("rule.short --short");
                assert_eq!(of_short, made("rule.lst"), "{name}");
                assert!(!of_short.is_empty());
            }
        }
    }
}

/// A file that passes both input lists. They ask for one length if m is n - 1, and m stands where a
/// listing file has its base: 17 items make it 10h. The last four kinds of the short file stand where
/// the other has the operand of item 0, which is a literal, then; and its base stands where the other
/// has its first four kinds, so that it begins with 52h and is no multiple of 4.
///
/// Read as a listing file: literals 52525252h and 1 to 15, then HALT, at 10h. Read as a short file:
/// literals 1 to 12, HALT, literals 13 to 15 and 0, at 52525252h.
fn both() -> Vec<u8> {
    let mut file = [17_u32, 16].map(u32::to_le_bytes).concat();
    file.extend([0x52; 16]);
    file.push(0x55);
    file.extend([0x52; 4]);
    file.extend((1_u32..16).chain([0]).flat_map(u32::to_le_bytes));
    file
}

#[test]
fn a_file_that_reads_as_either_is_read_as_told() {
    let folder = Folder::new("short_both");
    folder.write("both", both());
    folder.done("lengthen both -o from.short");
    let mut listing = [17, 0x5252_5252].map(u32::to_le_bytes).concat();
    listing.extend([[0x52; 12].as_slice(), &[0x55], &[0x52; 4]].concat());
    let operands = (1_u32..13).chain([0, 13, 14, 15, 0]);
    listing.extend(operands.flat_map(u32::to_le_bytes));
    assert_eq!(folder.read("from.short"), listing);
    let shortened = folder.done("shorten both -o to.short");
    assert!(shortened.contains(": 17 items, 16 operands, 93 bytes, 93 before"));
    assert_ne!(folder.read("to.short"), both());
    let literals: String = (2..16).map(|value| format!("{value:06X}53\n")).collect();
    let cells = format!("00015352\n52525252\n{literals}00000055\n");
    assert_eq!(folder.done("pack both"), cells);
    assert_eq!(folder.done("pack to.short --short"), cells);
    let said = folder.beetle("pack both --short");
    assert_eq!((said.status, said.output.as_str()), (1, "-4104\n"));
    let followed = folder.done("follow both");
    assert!(followed.contains("stopped by HALT, reason 15 (Fh)"));
    for words in ["show", "follow", "save -o x.mod"] {
        folder.done(&format!("{words} both"));
        let said = folder.beetle(&format!("{words} both --short"));
        assert!(said.error.contains("refused with -4104: "), "{said:?}");
    }
}
