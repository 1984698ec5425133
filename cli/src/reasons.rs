//! Why a machine stopped or threw, in words.

use crate::limits::Limits;
use crate::number::shown;

/// Reasons of the machine itself.
pub const BAD_STACK: u32 = -258_i32 as u32;
pub const BAD_HANDLER: u32 = -259_i32 as u32;

/// Why a machine stopped that has this SP and these limits.
pub fn why(reason: u32, sp: u32, limits: &Limits) -> String {
    match reason {
        BAD_STACK => format!("-258: {}", bad_stack(sp, limits)),
        BAD_HANDLER => "-259: a throw found no valid address in 'THROW".to_string(),
        _ => format!("by HALT, reason {}", shown(reason)),
    }
}

/// What a stop with -258 was. Such a stop keeps SP, so that areas and a table tell more.
fn bad_stack(sp: u32, limits: &Limits) -> &'static str {
    let push_is_kept_off = sp.is_multiple_of(4) && limits.table.holds(sp.wrapping_sub(4));
    let into_the_table =
        "a throw's code would have gone into the table, unless HALT gave this reason";
    let Some([data, _]) = limits.areas.given() else {
        return match push_is_kept_off {
            true => into_the_table,
            false => "SP was no place for a throw's code or for HALT's reason",
        };
    };
    if !sp.is_multiple_of(4) {
        "SP was no multiple of 4: no place for a throw's code or for HALT's reason"
    } else if sp < data.start {
        "SP was below the data area: no place for a throw's code or for HALT's reason"
    } else if sp == data.start {
        "the data stack had filled its area and the cell held under it: no place for a throw's code"
    } else if sp > data.end {
        "SP was above the data area: no place for a throw's code or for HALT's reason"
    } else if push_is_kept_off {
        into_the_table
    } else if sp == data.end {
        "the data stack is empty: HALT found no reason there, or this one as the last item"
    } else {
        "the rule gave HALT this reason"
    }
}

/// What a thrown code means (document 01 and the paper's table 4).
pub fn code_meaning(code: i32, limits: &Limits) -> String {
    let meaning = match code {
        -9 => "an address outside memory",
        -10 => "division by zero",
        -23 => "an address that is no multiple of 4",
        -256 => "an opcode that is not carried out",
        -257 => "LIB, which has no routine",
        _ => {
            return limits
                .kept_off(code)
                .unwrap_or("the rule's own".to_string())
        }
    };
    meaning.to_string()
}

/// Why the list machine stands in front of an item.
pub fn why_outside(number: u32) -> &'static str {
    match number {
        1 => "it would write a byte of the image",
        2 => "it transfers to no entry",
        3 => "it throws to a 'THROW that is no entry",
        _ => "it runs on past the end",
    }
}

#[cfg(test)]
mod tests {
    use super::*;
    use crate::areas::Areas;
    use crate::table::Table;

    /// Four cells from 100h on, the held cell at FCh.
    fn areas() -> Limits {
        let areas = Areas::of([0x110, 4, 0x200, 4]);
        let table = Table::default();
        Limits { areas, table }
    }

    fn with_table(limits: Limits, first: u32, end: u32) -> Limits {
        let table = Table { first, end };
        Limits { table, ..limits }
    }

    #[test]
    fn a_bad_stack_by_its_pointer() {
        let rows = [
            (0xF8, "below the data area"),
            (0xFC, "the cell held under it"),
            (0xFE, "no multiple of 4"),
            (0x100, "gave HALT"),
            (0x10C, "gave HALT"),
            (0x110, "is empty"),
            (0x114, "above the data area"),
        ];
        for (sp, expected) in rows {
            let told = why(BAD_STACK, sp, &areas());
            assert!(told.contains(expected), "{sp:X}: {told}");
        }
        let without = why(BAD_STACK, 0xFC, &Limits::default());
        assert_eq!(
            without,
            "-258: SP was no place for a throw's code or for HALT's reason"
        );
    }

    #[test]
    fn a_bad_stack_by_a_table() {
        let into =
            "-258: a throw's code would have gone into the table, unless HALT gave this reason";
        let over_all = with_table(areas(), 0x80, 0x200);
        let rows = [
            (0xF8, "below the data area"),
            (0xFC, "the cell held under it"),
            (0xFE, "no multiple of 4"),
            (0x100, into),
            (0x110, into),
            (0x114, "above the data area"),
        ];
        for (sp, expected) in rows {
            let told = why(BAD_STACK, sp, &over_all);
            assert!(told.contains(expected), "{sp:X}: {told}");
        }
        let alone = with_table(Limits::default(), 0x100, 0x108);
        for (sp, kept_off) in [(0x100, false), (0x104, true), (0x108, true), (0x10C, false)] {
            assert_eq!(why(BAD_STACK, sp, &alone) == into, kept_off, "{sp:X}");
        }
        assert!(why(BAD_STACK, 0x106, &alone).contains("SP was no place"));
    }

    #[test]
    fn codes_of_areas_are_the_rules_own_without_areas() {
        let rows = [
            (-3, "the data stack went below"),
            (-4, "the data stack went above"),
            (-5, "the return stack went below"),
            (-6, "the return stack went above"),
        ];
        for (code, expected) in rows {
            assert!(code_meaning(code, &areas()).starts_with(expected));
            assert_eq!(code_meaning(code, &Limits::default()), "the rule's own");
        }
        assert_eq!(code_meaning(-2, &areas()), "the rule's own");
        assert_eq!(code_meaning(-7, &areas()), "the rule's own");
    }

    #[test]
    fn a_store_is_the_rules_own_code_without_a_table() {
        let told = code_meaning(-20, &with_table(areas(), 0x10, 0x8C));
        assert_eq!(told, "a store into the table from 10h up to 8Ch");
        assert_eq!(code_meaning(-20, &areas()), "the rule's own");
        let of_no_byte = with_table(areas(), 0x10, 0x10);
        assert_eq!(code_meaning(-20, &of_no_byte), "the rule's own");
    }
}
