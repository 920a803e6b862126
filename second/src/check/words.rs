//! Building instruction words.

/// `add r0, r0, r0`.
pub const NEUTRAL: u32 = 0x0001_883A;

pub mod op {
    pub const LDBU: u32 = 0x03;
    pub const ADDI: u32 = 0x04;
    pub const STB: u32 = 0x05;
    pub const BR: u32 = 0x06;
    pub const LDB: u32 = 0x07;
    pub const LDHU: u32 = 0x0B;
    pub const ANDI: u32 = 0x0C;
    pub const STH: u32 = 0x0D;
    pub const LDH: u32 = 0x0F;
    pub const ORI: u32 = 0x14;
    pub const STW: u32 = 0x15;
    pub const LDW: u32 = 0x17;
    pub const BNE: u32 = 0x1E;
    pub const XORI: u32 = 0x1C;
    pub const BEQ: u32 = 0x26;
    pub const MULI: u32 = 0x24;
    pub const CUSTOM: u32 = 0x32;
    pub const INITD: u32 = 0x33;
    pub const REGISTER: u32 = 0x3A;
    pub const ORHI: u32 = 0x34;
    pub const FLUSHD: u32 = 0x3B;
    /// The io form of a load or store.
    pub const IO: u32 = 0x20;

    /// addi, andi, andhi, ori, orhi, xori, xorhi and the comparisons.
    pub const ARITHMETIC: [u32; 13] = [
        0x04, 0x08, 0x0C, 0x10, 0x14, 0x18, 0x1C, 0x20, 0x28, 0x2C, 0x30, 0x34, 0x3C,
    ];
    pub const BRANCHES: [u32; 6] = [0x0E, 0x16, 0x1E, 0x26, 0x2E, 0x36];
}

pub mod opx {
    pub const ERET: u32 = 0x01;
    pub const ROLI: u32 = 0x02;
    pub const RET: u32 = 0x05;
    pub const BRET: u32 = 0x09;
    pub const ROR: u32 = 0x0B;
    pub const JMP: u32 = 0x0D;
    pub const AND: u32 = 0x0E;
    pub const SLLI: u32 = 0x12;
    pub const MULXSU: u32 = 0x17;
    pub const SRLI: u32 = 0x1A;
    pub const NEXTPC: u32 = 0x1C;
    pub const CALLR: u32 = 0x1D;
    pub const XOR: u32 = 0x1E;
    pub const MULXSS: u32 = 0x1F;
    pub const RDCTL: u32 = 0x26;
    pub const MUL: u32 = 0x27;
    pub const TRAP: u32 = 0x2D;
    pub const WRCTL: u32 = 0x2E;
    pub const ADD: u32 = 0x31;
    pub const BREAK: u32 = 0x34;
    pub const SRA: u32 = 0x3B;

    /// add, sub, the logical ones and the comparisons.
    pub const ARITHMETIC: [u32; 12] = [
        0x06, 0x08, 0x0E, 0x10, 0x16, 0x18, 0x1E, 0x20, 0x28, 0x30, 0x31, 0x39,
    ];
    pub const SHIFTS: [u32; 9] = [0x02, 0x03, 0x0B, 0x12, 0x13, 0x1A, 0x1B, 0x3A, 0x3B];
    pub const PRODUCTS: [u32; 4] = [0x07, 0x17, 0x1F, 0x27];
    pub const QUOTIENTS: [u32; 2] = [0x24, 0x25];
    /// flushp, flushi, initi, sync.
    pub const CACHE: [u32; 4] = [0x04, 0x0C, 0x29, 0x36];
}

pub mod ctl {
    pub const STATUS: u32 = 0;
    pub const IENABLE: u32 = 3;
    pub const IPENDING: u32 = 4;
}

pub fn immediate(op: u32, a: u32, b: u32, value: u32) -> u32 {
    a << 27 | b << 22 | (value & 0xFFFF) << 6 | op
}

pub fn register(opx: u32, a: u32, b: u32, c: u32) -> u32 {
    register_small(opx, a, b, c, 0)
}

pub fn register_small(opx: u32, a: u32, b: u32, c: u32, small: u32) -> u32 {
    a << 27 | b << 22 | c << 17 | opx << 11 | small << 6 | op::REGISTER
}

pub fn call(target: u32) -> u32 {
    target << 4 & !0x3F
}

/// A branch word that stands at `pc`.
pub fn branch(op: u32, a: u32, b: u32, pc: u32, target: u32) -> u32 {
    immediate(op, a, b, target.wrapping_sub(pc).wrapping_sub(4))
}

/// Writes a word into memory.
pub fn put(memory: &mut [u8], address: u32, word: u32) {
    let address = address as usize;
    memory[address..address + 4].copy_from_slice(&word.to_le_bytes());
}

/// Reads a word from memory.
pub fn get(memory: &[u8], address: u32) -> u32 {
    let address = address as usize;
    let bytes = memory[address..address + 4].try_into();
    u32::from_le_bytes(bytes.expect("four bytes"))
}
