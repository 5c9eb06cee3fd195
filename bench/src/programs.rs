//! The programs that are timed. Each leaves a sum of what it worked out in the frame's first eight bytes, where the two
//! interpreters can be compared.

use crate::assemble::*;

/// How many bytes of the frame a program may touch.
const REACH: i16 = 64;

/// The registers that arithmetic works on. R2 is the packet.
const FREE: [u8; 9] = [0, 1, 3, 4, 5, 6, 7, 8, 9];

/// Numbers that look random and are the same in each run (Knuth's linear congruential generator).
struct Numbers(u64);

impl Numbers {
    fn next(&mut self) -> u64 {
        self.0 = self.0.wrapping_mul(6_364_136_223_846_793_005).wrapping_add(1_442_695_040_888_963_407);
        self.0 >> 33
    }

    fn of<T: Copy>(&mut self, all: &[T]) -> T {
        all[self.next() as usize % all.len()]
    }
}

/// The packet in R2, tested to have the bytes that the program touches. The place of the test is given back.
fn opening(slots: &mut Vec<Slot>) -> usize {
    slots.push(load(W, 2, 1, 0));
    slots.push(load(W, 3, 1, 4));
    slots.push(mov_reg(4, 2));
    slots.push(alu_imm(ALU64, ADD, 4, REACH.into()));
    slots.push(mov(0, 2));
    slots.push(exit());
    slots.len() - 1
}

/// The sum of the free registers into the frame, and the end, to which the test at that place jumps.
fn closing(slots: &mut Vec<Slot>, test: usize) {
    for register in &FREE[1..] {
        slots.push(alu_imm(ALU64, MUL, 0, 31));
        slots.push(alu_reg(ALU64, XOR, 0, *register));
    }
    slots.push(store(DW, 2, 0, 0));
    slots.push(mov(0, 2));
    ending(slots, test);
}

fn ending(slots: &mut Vec<Slot>, test: usize) {
    slots[test] = jump_reg(JMP, JGT, 4, 3, (slots.len() - test - 1) as i16);
    slots.push(exit());
}

/// A program of instructions on the free registers.
fn on_registers(body: impl FnOnce(&mut Vec<Slot>)) -> Program {
    let mut slots = Vec::new();
    let test = opening(&mut slots);
    for register in FREE {
        slots.push(mov(register, 0x1234_5678 >> register));
    }
    body(&mut slots);
    closing(&mut slots, test);
    Program { maps: Vec::new(), slots }
}

/// Additions, exclusive ors, shifts and their like, each on the one before.
pub fn straight(count: usize) -> Program {
    on_registers(|slots| {
        for place in 0..count {
            let (dst, src) = (FREE[place % 9], FREE[place * 5 % 9]);
            slots.push(match place % 8 {
                0 => alu_reg(ALU64, ADD, dst, src),
                1 => alu_imm(ALU64, XOR, dst, 0x5555),
                2 => alu_imm(ALU64, LSH, dst, 3),
                3 => alu_reg(ALU64, SUB, dst, src),
                4 => alu_reg(ALU64, OR, dst, src),
                5 => alu_imm(ALU64, ADD, dst, 77),
                6 => alu_imm(ALU64, RSH, dst, 2),
                _ => alu_reg(ALU64, MOV, dst, src),
            });
        }
    })
}

fn random_operation(numbers: &mut Numbers) -> Slot {
    const OPS: [u8; 12] = [ADD, SUB, MUL, DIV, OR, AND, LSH, RSH, MOD, XOR, MOV, ARSH];
    let class = numbers.of(&[ALU, ALU64]);
    let (dst, src) = (numbers.of(&FREE), numbers.of(&FREE));
    match numbers.next() % 16 {
        0 => neg(class, dst),
        1 => to_big(dst, numbers.of(&[16, 32, 64])),
        2 => alu_offset(ALU64, MOV, dst, src, numbers.of(&[8, 16, 32])),
        3 => alu_offset(class, numbers.of(&[DIV, MOD]), dst, src, 1),
        4..=9 => alu_imm(class, numbers.of(&OPS), dst, numbers.next() as i32),
        _ => alu_reg(class, numbers.of(&OPS), dst, src),
    }
}

/// Operations of all kinds, widths and sources.
pub fn random(count: usize) -> Program {
    let mut numbers = Numbers(9669);
    on_registers(|slots| {
        for _ in 0..count {
            slots.push(random_operation(&mut numbers));
        }
    })
}

/// Conditional jumps over an addition, half of them taken, and a change of what is tested.
pub fn branches(count: usize) -> Program {
    let mut numbers = Numbers(7);
    on_registers(|slots| {
        for place in 0..count {
            let class = numbers.of(&[JMP, JMP32]);
            let test = numbers.of(&[JEQ, JGT, JGE, JSET, JNE, JSGT, JLT, JSLE]);
            let (dst, src) = (numbers.of(&FREE), numbers.of(&FREE));
            slots.push(if place % 2 == 0 {
                jump_reg(class, test, dst, src, 1)
            } else {
                jump_imm(class, test, dst, numbers.next() as i32, 1)
            });
            slots.push(alu_imm(ALU64, ADD, dst, 0x1111));
        }
    })
}

/// Loads of all widths from the packet.
pub fn packet_loads(count: usize) -> Program {
    on_registers(|slots| {
        for place in 0..count {
            let size = [B, H, W, DW][place % 4];
            slots.push(load(size, FREE[place % 9], 2, 8 + (place * 7 % 48) as i16));
        }
    })
}

/// Stores of eight bytes to the stack, each loaded again.
pub fn stack_words(count: usize) -> Program {
    on_registers(|slots| {
        for place in 0..count / 2 {
            let at = -8 * (1 + place % 64) as i16;
            slots.push(store(DW, 10, FREE[place % 9], at));
            slots.push(load(DW, FREE[(place + 4) % 9], 10, at));
        }
    })
}

/// A lookup of an array's first index, and a load of its value where there is one: nine slots, eight instructions.
fn lookup_and_load(slots: &mut Vec<Slot>, map: i32) {
    slots.push(store_imm(W, 10, -4, 0));
    slots.push(mov_reg(2, 10));
    slots.push(alu_imm(ALU64, ADD, 2, -4));
    slots.extend(load_map(1, map));
    slots.push(call(1));
    slots.push(jump_imm(JMP, JEQ, 0, 0, 1));
    slots.push(load(DW, 3, 0, 0));
    slots.push(mov(0, 2));
}

const ONE_VALUE: Array = Array { value_size: 8, max_entries: 1 };

/// Lookups in an array, each with a load.
pub fn map_loads(count: usize) -> Program {
    let mut slots = Vec::new();
    for _ in 0..count {
        lookup_and_load(&mut slots, 0);
    }
    slots.push(exit());
    Program { maps: vec![ONE_VALUE], slots }
}

/// The smallest program that tests the packet and asks a map: 18 slots.
pub fn small() -> Program {
    let mut slots = Vec::new();
    let test = opening(&mut slots);
    slots.push(load(B, 5, 2, 13));
    lookup_and_load(&mut slots, 0);
    slots.push(alu_imm(ALU64, AND, 0, 3));
    ending(&mut slots, test);
    Program { maps: vec![ONE_VALUE], slots }
}

/// Packet loads, arithmetic, jumps, the stack and lookups in turn: 30 slots.
fn turn(slots: &mut Vec<Slot>, place: i16) {
    let at = 8 + place % 48;
    let word = -16 - 8 * (place % 60);
    for (size, register) in [(B, 3), (H, 4), (W, 5)] {
        slots.push(load(size, register, 6, at));
    }
    slots.push(jump_imm(JMP, JGT, 3, 40, 2));
    slots.push(alu_reg(ALU64, ADD, 7, 3));
    slots.push(alu_imm(ALU64, AND, 7, 0xffff));
    slots.push(jump_imm(JMP32, JEQ, 4, 0x800, 3));
    slots.push(alu_reg(ALU, XOR, 8, 5));
    slots.push(to_big(8, 16));
    slots.push(alu_imm(ALU64, LSH, 8, 4));
    slots.push(store(DW, 10, 7, word));
    slots.push(load(DW, 9, 10, word));
    slots.push(jump_reg(JMP, JLT, 9, 8, 1));
    slots.push(alu_imm(ALU64, SUB, 8, 1));
    lookup_and_load(slots, 0);
    for _ in 0..3 {
        slots.push(alu_reg(ALU64, ADD, 7, 8));
        slots.push(alu_imm(ALU64, RSH, 7, 1));
    }
    slots.push(mov(0, 2));
}

/// A program of so many slots in which all kinds of instructions take turns.
pub fn mixed(count: usize) -> Program {
    let mut slots = Vec::new();
    let test = opening(&mut slots);
    slots.push(mov_reg(6, 2));
    for register in [7, 8, 9] {
        slots.push(mov(register, register.into()));
    }
    let mut place = 0;
    while slots.len() + 31 <= count {
        turn(&mut slots, place);
        place += 1;
    }
    while slots.len() + 1 < count {
        slots.push(alu_imm(ALU64, ADD, 7, 1));
    }
    ending(&mut slots, test);
    Program { maps: vec![ONE_VALUE], slots }
}
