//! Instructions and images as bytes (RFC 9669, sections 3 to 5; the image format of docs/FORMATS.md).

/// Eight bytes of a program.
pub type Slot = [u8; 8];

pub const ADD: u8 = 0;
pub const SUB: u8 = 1;
pub const MUL: u8 = 2;
pub const DIV: u8 = 3;
pub const OR: u8 = 4;
pub const AND: u8 = 5;
pub const LSH: u8 = 6;
pub const RSH: u8 = 7;
pub const NEG: u8 = 8;
pub const MOD: u8 = 9;
pub const XOR: u8 = 10;
pub const MOV: u8 = 11;
pub const ARSH: u8 = 12;
pub const END: u8 = 13;

pub const JEQ: u8 = 1;
pub const JGT: u8 = 2;
pub const JGE: u8 = 3;
pub const JSET: u8 = 4;
pub const JNE: u8 = 5;
pub const JSGT: u8 = 6;
pub const JLT: u8 = 10;
pub const JSLE: u8 = 13;

/// Four, two, one and eight bytes.
pub const W: u8 = 0;
pub const H: u8 = 1;
pub const B: u8 = 2;
pub const DW: u8 = 3;

/// The classes of arithmetic and of jumps, on 32 and on 64 bits.
pub const ALU: u8 = 4;
pub const ALU64: u8 = 7;
pub const JMP32: u8 = 6;
pub const JMP: u8 = 5;

pub fn slot(opcode: u8, dst: u8, src: u8, offset: i16, immediate: i32) -> Slot {
    let [offset_low, offset_high] = offset.to_le_bytes();
    let [a, b, c, d] = immediate.to_le_bytes();
    [opcode, dst | src << 4, offset_low, offset_high, a, b, c, d]
}

/// Arithmetic with an immediate.
pub fn alu_imm(class: u8, op: u8, dst: u8, immediate: i32) -> Slot {
    slot(op << 4 | class, dst, 0, 0, immediate)
}

/// Arithmetic with a register.
pub fn alu_reg(class: u8, op: u8, dst: u8, src: u8) -> Slot {
    slot(op << 4 | 8 | class, dst, src, 0, 0)
}

/// Division, remainder or a move with an offset: signed, or sign-extending.
pub fn alu_offset(class: u8, op: u8, dst: u8, src: u8, offset: i16) -> Slot {
    slot(op << 4 | 8 | class, dst, src, offset, 0)
}

pub fn neg(class: u8, dst: u8) -> Slot {
    slot(NEG << 4 | class, dst, 0, 0, 0)
}

/// The low bits of a register in big-endian order.
pub fn to_big(dst: u8, bits: i32) -> Slot {
    slot(END << 4 | 8 | ALU, dst, 0, 0, bits)
}

pub fn mov(dst: u8, immediate: i32) -> Slot {
    alu_imm(ALU64, MOV, dst, immediate)
}

pub fn mov_reg(dst: u8, src: u8) -> Slot {
    alu_reg(ALU64, MOV, dst, src)
}

pub fn jump_imm(class: u8, test: u8, dst: u8, immediate: i32, distance: i16) -> Slot {
    slot(test << 4 | class, dst, 0, distance, immediate)
}

pub fn jump_reg(class: u8, test: u8, dst: u8, src: u8, distance: i16) -> Slot {
    slot(test << 4 | 8 | class, dst, src, distance, 0)
}

pub fn load(size: u8, dst: u8, src: u8, offset: i16) -> Slot {
    slot(0x61 | size << 3, dst, src, offset, 0)
}

pub fn store(size: u8, dst: u8, src: u8, offset: i16) -> Slot {
    slot(0x63 | size << 3, dst, src, offset, 0)
}

pub fn store_imm(size: u8, dst: u8, offset: i16, immediate: i32) -> Slot {
    slot(0x62 | size << 3, dst, 0, offset, immediate)
}

pub fn load_map(dst: u8, map: i32) -> [Slot; 2] {
    [slot(0x18, dst, 1, 0, map), slot(0, 0, 0, 0, 0)]
}

pub fn call(helper: i32) -> Slot {
    slot(0x85, 0, 0, 0, helper)
}

pub fn exit() -> Slot {
    slot(0x95, 0, 0, 0, 0)
}

/// An array's definition: keys of four bytes.
#[derive(Clone, Copy)]
pub struct Array {
    pub value_size: u32,
    pub max_entries: u32,
}

/// A program with its maps.
pub struct Program {
    pub maps: Vec<Array>,
    pub slots: Vec<Slot>,
}

impl Program {
    /// The bytes of its image.
    pub fn image(&self) -> Vec<u8> {
        let mut bytes = b"XLBP\x01".to_vec();
        bytes.extend([self.maps.len() as u8, 0, 0]);
        for map in &self.maps {
            for field in [2, 4, map.value_size, map.max_entries] {
                bytes.extend(field.to_le_bytes());
            }
        }
        bytes.extend(self.slots.iter().flatten());
        bytes
    }
}
