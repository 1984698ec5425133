//! The instruction names of the paper's table 7, by opcode.

/// The names of 00h to 5Bh.
#[rustfmt::skip]
const NAMES: [&str; 0x5C] = [
    /* 00h */ "NEXT", "DUP", "DROP", "SWAP", "OVER", "ROT", "-ROT", "TUCK",
    /* 08h */ "NIP", "PICK", "ROLL", "?DUP", ">R", "R>", "R@", "<",
    /* 10h */ ">", "=", "<>", "0<", "0>", "0=", "0<>", "U<",
    /* 18h */ "U>", "0", "1", "-1", "CELL", "-CELL", "+", "-",
    /* 20h */ ">-<", "1+", "1-", "CELL+", "CELL-", "*", "/", "MOD",
    /* 28h */ "/MOD", "U/MOD", "S/REM", "2/", "CELLS", "ABS", "NEGATE", "MAX",
    /* 30h */ "MIN", "INVERT", "AND", "OR", "XOR", "LSHIFT", "RSHIFT", "1LSHIFT",
    /* 38h */ "1RSHIFT", "@", "!", "C@", "C!", "+!", "SP@", "SP!",
    /* 40h */ "RP@", "RP!", "BRANCH", "BRANCHI", "?BRANCH", "?BRANCHI", "EXECUTE", "@EXECUTE",
    /* 48h */ "CALL", "CALLI", "EXIT", "(DO)", "(LOOP)", "(LOOP)I", "(+LOOP)", "(+LOOP)I",
    /* 50h */ "UNLOOP", "J", "(LITERAL)", "(LITERAL)I", "THROW", "HALT", "(CREATE)", "LIB",
    /* 58h */ "OS", "LINK", "RUN", "STEP",
];

/// The opcodes of the literal, of THROW and of HALT.
pub const LITERAL: u8 = 0x52;
pub const THROW: u8 = 0x54;
pub const HALT: u8 = 0x55;

/// What an opcode is in a listing.
#[derive(Clone, Copy, PartialEq, Eq, Debug)]
pub enum Kind {
    Plain,
    Literal,
    Branch,
}

/// What an opcode is in a listing; none for NEXT, the immediate opcodes, the five that raise -256
/// and the undefined ones.
pub fn kind_of(opcode: u8) -> Option<Kind> {
    match opcode {
        LITERAL => Some(Kind::Literal),
        0x42 | 0x44 | 0x48 | 0x4C | 0x4E => Some(Kind::Branch),
        0x00 | 0x43 | 0x45 | 0x49 | 0x4D | 0x4F | 0x53 => None,
        0x56 | 0x58..=0xFF => None,
        _ => Some(Kind::Plain),
    }
}

/// The name of an opcode.
pub fn name_of(opcode: u8) -> &'static str {
    NAMES.get(usize::from(opcode)).copied().unwrap_or("?")
}

/// The opcode with this name, in capitals or not.
pub fn opcode_of(name: &str) -> Option<u8> {
    let at = NAMES.iter().position(|n| n.eq_ignore_ascii_case(name))?;
    u8::try_from(at).ok()
}

#[cfg(test)]
mod tests {
    use super::*;

    #[test]
    fn some_names_stand_at_their_opcodes() {
        let rows = [
            (0x01, "DUP"),
            (0x0B, "?DUP"),
            (0x17, "U<"),
            (0x20, ">-<"),
            (0x2A, "S/REM"),
            (0x38, "1RSHIFT"),
            (0x39, "@"),
            (0x47, "@EXECUTE"),
            (0x4E, "(+LOOP)"),
            (0x52, "(LITERAL)"),
            (0x55, "HALT"),
            (0x5B, "STEP"),
        ];
        for (opcode, name) in rows {
            assert_eq!(name_of(opcode), name);
            assert_eq!(opcode_of(&name.to_lowercase()), Some(opcode));
        }
    }

    #[test]
    fn eighty_opcodes_are_kinds() {
        let kinds = (0..=255).filter(|opcode| kind_of(*opcode).is_some());
        assert_eq!(kinds.count(), 80);
    }
}
