//! The processor in C of `peer/`, which has the table but no stack areas.

use crate::sides::Run;

/// Its run; none where there was no C compiler.
#[cfg(not(peer))]
pub fn run() -> Option<Run> {
    None
}

#[cfg(peer)]
pub fn run() -> Option<Run> {
    Some(c::run)
}

#[cfg(peer)]
mod c {
    extern "C" {
        fn peer_run(
            order: u8,
            memory: *mut u8,
            memory_length: usize,
            table: u32,
            table_end: u32,
            registers: *mut u32,
            registers_length: usize,
            budget: u32,
            out: *mut u32,
            out_length: usize,
        ) -> u32;
    }

    pub fn run(
        order: u8,
        memory: &mut [u8],
        table: u32,
        table_end: u32,
        registers: &mut [u32],
        budget: u32,
        out: &mut [u32],
    ) -> u32 {
        let (m, m_length) = (memory.as_mut_ptr(), memory.len());
        let (r, r_length) = (registers.as_mut_ptr(), registers.len());
        let (o, o_length) = (out.as_mut_ptr(), out.len());
        // SAFETY: each pointer goes with the length of its slice; the slices do not overlap.
        unsafe {
            peer_run(
                order, m, m_length, table, table_end, r, r_length, budget, o, o_length,
            )
        }
    }
}

#[cfg(all(test, peer))]
mod tests {
    use super::run;
    use crate::sides::{Run, Side};
    use beetle_tests::random::Random;

    /// Machines that are tried.
    const MACHINES: u32 = 200_000;
    const MEMORY: u32 = 1024;

    /// A machine in any state, without areas.
    #[derive(Clone, PartialEq, Eq, Debug)]
    struct Machine {
        order: u8,
        memory: Vec<u8>,
        table: [u32; 2],
        registers: [u32; 8],
        out: [u32; 2],
        answer: u32,
    }

    /// A stack pointer or address, mostly in memory and aligned.
    fn pointer(random: &mut Random) -> u32 {
        match random.below(20) {
            0 => random.cell(),
            1 => random.below(MEMORY + 8),
            2 => random.below(5).wrapping_sub(2).wrapping_mul(4),
            3 => MEMORY + 8 - 4 * random.below(5),
            _ => 4 * random.below(MEMORY / 4),
        }
    }

    /// A cell: an address, a small number, or any.
    fn cell(random: &mut Random) -> u32 {
        match random.below(3) {
            0 => pointer(random),
            1 => random.below(9).wrapping_sub(4),
            _ => random.cell(),
        }
    }

    /// None, the most that there is, any two numbers, some cells, or one or two near a stack's top.
    fn table(random: &mut Random, sp: u32, rp: u32) -> [u32; 2] {
        let (first, cells) = match random.below(8) {
            0 | 1 => return [0; 2],
            2 => return [0x10, MEMORY],
            3 => return [pointer(random), pointer(random)],
            4 => (4 * random.below(MEMORY / 4), random.below(64)),
            _ => {
                let top = [sp, rp][random.below(2) as usize];
                let off = random.below(6).wrapping_sub(2).wrapping_mul(4);
                (top.wrapping_add(off) % MEMORY, 1 + random.below(2))
            }
        };
        let end = first.saturating_add(4 * cells).min(MEMORY);
        [first, end]
    }

    fn machine(random: &mut Random) -> Machine {
        let cells = (0..MEMORY / 4).flat_map(|_| cell(random).to_le_bytes());
        let memory = cells.collect();
        let opcode = u32::from(random.byte()) % 0x5C;
        let a = (random.cell() << 8) | opcode;
        let mut registers = [0; 8];
        registers[0] = pointer(random);
        registers[1] = a;
        registers[2] = pointer(random);
        registers[3] = pointer(random);
        Machine {
            order: random.below(2) as u8,
            memory,
            table: table(random, registers[2], registers[3]),
            registers,
            out: [7; 2],
            answer: 0,
        }
    }

    fn after(run: Run, mut machine: Machine, budget: u32) -> Machine {
        let Machine {
            order,
            memory,
            table: [first, end],
            registers,
            out,
            ..
        } = &mut machine;
        machine.answer = run(*order, memory, *first, *end, registers, budget, out);
        machine
    }

    #[test]
    fn it_leaves_what_the_independent_one_leaves() {
        let mut random = Random::new(1);
        let peer = run().expect("a peer");
        let independent = Side::Independent.run().expect("the other one");
        for _ in 0..MACHINES {
            let machine = machine(&mut random);
            let budget = random.below(4);
            let [left, right] = [peer, independent].map(|run| after(run, machine.clone(), budget));
            let Machine {
                table, registers, ..
            } = machine;
            assert!(left == right, "{registers:X?} {table:X?} {budget}");
        }
    }
}
