//! Bad input: what is said, and the exit status.

use crate::folder::Folder;

/// The command ends with this status, and its error stream holds this text.
fn is_refused(folder: &Folder, words: &str, status: i32, error: &str) {
    let said = folder.beetle(words);
    assert_eq!(said.status, status, "{words}: {said:?}");
    assert!(said.error.contains(error), "{words}: {said:?}");
}

#[test]
fn mistakes_in_a_text() {
    let folder = Folder::new("mistakes");
    folder.write(
        "RULE.txt",
        "DUP\n\n  1 1 DUPP\nBRANCH away\n4294967296\n( open",
    );
    let said = folder.beetle("assemble RULE.txt -o never.lst");
    let expected = "\
RULE.txt:3:7: unknown instruction 'DUPP'
RULE.txt:4:8: unknown label 'away'
RULE.txt:5:1: number too large: '4294967296' (a cell holds -2147483648 to 4294967295 or FFFFFFFFh)
RULE.txt:6:1: no ' )' ends this comment
";
    assert_eq!((said.status, said.error.as_str()), (1, expected));
    is_refused(&folder, "pack never.lst", 1, "never.lst: ");
}

#[test]
fn texts_that_the_packer_refuses() {
    let folder = Folder::new("refused_texts");
    let many = "DUP ".repeat(4097);
    let rows = [
        ("", "-4106"),
        (&many, "-4106"),
        ("base 12h DUP", "-4104"),
        ("base Ch DUP", "-4110"),
        ("base FFFFFCh DUP 128 DUP DUP DUP DUP", "-4110"),
    ];
    for (text, number) in rows {
        folder.write("rule.txt", text);
        let error = format!("refused with {number}: ");
        is_refused(&folder, "assemble rule.txt -o rule.lst", 1, &error);
    }
    folder.write("rule.txt", [0x44, 0xFF]);
    is_refused(&folder, "assemble rule.txt -o rule.lst", 1, "no text");
}

#[test]
fn cut_and_damaged_listings() {
    let folder = Folder::new("cut_listings");
    folder.rule("2 3 + HALT");
    let file = folder.read("rule.lst");
    for length in 0..file.len() {
        folder.write("cut.lst", &file[..length]);
        let said = folder.beetle("pack cut.lst");
        assert_eq!((said.status, said.output.as_str()), (1, "-4106\n"));
        assert!(said.error.contains("refused with -4106: "));
    }
    for command in ["show", "follow", "save -o x.mod"] {
        is_refused(&folder, &format!("{command} cut.lst"), 1, "-4106");
    }
    let rows: [(&[(usize, u8)], &str); 3] = [
        (&[(8, 0x53)], "-4107"),
        (&[(20, 1)], "-4108"),
        (&[(8, 0x42), (12, 4)], "-4109"),
    ];
    for (edits, number) in rows {
        let mut bad = file.clone();
        edits.iter().for_each(|(at, byte)| bad[*at] = *byte);
        folder.write("bad.lst", bad);
        assert_eq!(folder.beetle("pack bad.lst").output, format!("{number}\n"));
    }
}

#[test]
fn cut_and_misplaced_modules() {
    let folder = Folder::new("cut_modules");
    folder.rule("2 3 + HALT");
    let file = folder.read("rule.mod");
    for length in 0..file.len() {
        folder.write("cut.mod", &file[..length]);
        let number = if length < 8 { "-2" } else { "-4103" };
        let error = format!("refused with {number}: ");
        is_refused(&folder, "load cut.mod", 1, &error);
        is_refused(&folder, "load cut.mod --first 0", 1, &error);
        is_refused(&folder, "run cut.mod", 1, &error);
    }
    let rows = [
        ("--memory 1020", "-4101"),
        ("--memory 99999999999", "-4101"),
        ("--order 2", "-4102"),
        ("--address 12h", "-4104"),
        ("--address 10000h", "-1"),
        ("--memory 1024 --address 3F8h", "-1"),
    ];
    for (words, number) in rows {
        let error = format!("refused with {number}: ");
        is_refused(&folder, &format!("run rule.mod {words}"), 1, &error);
        is_refused(
            &folder,
            &format!("load rule.mod --first 1 {words}"),
            1,
            &error,
        );
    }
}

#[test]
fn wrong_command_lines() {
    let folder = Folder::new("usage");
    let rows = [
        ("pask x", "unknown command pask"),
        ("pack", "RULE.lst is missing"),
        ("pack a b", "one file too many: b"),
        ("pack a --fast", "unknown option --fast"),
        ("pack a --order", "--order wants a value"),
        ("pack a --order x", "--order wants 0 to 255, not 'x'"),
        ("pack a --order 0 --order 1", "--order is given twice"),
        ("run a --entry -4", "--entry wants 0 to 4294967295"),
        ("assemble a", "-o FILE is missing"),
    ];
    for (words, error) in rows {
        is_refused(&folder, words, 2, error);
    }
}

#[test]
fn help_for_each_command() {
    let folder = Folder::new("help");
    let all = folder.done("--help");
    let commands = [
        "assemble", "shorten", "lengthen", "show", "pack", "unpack", "save", "load", "run",
        "batch", "report", "forms", "follow",
    ];
    for command in commands {
        assert!(all.contains(&format!("\n  {command} ")));
        let help = folder.done(&format!("{command} --help"));
        assert!(help.starts_with(&format!("beetle {command} ")));
    }
}
