//! As much of x86-64's code as its frames need: how long each instruction is, and what it does to the stack pointer.
//! Whatever is neither known to leave the stack pointer alone nor to move it by a fixed number is told as unknown.

/// What an instruction does to the stack pointer, and where it leads.
#[derive(Clone, Copy, PartialEq, Eq, Debug)]
pub enum Effect {
    None,
    /// So many bytes are taken, or given back if it is less than 0.
    Moves(i64),
    /// A jump by so many bytes from its end, or on to the next instruction.
    MayJump(i32),
    Jumps(i32),
    /// A jump to a place that the code doesn't name.
    JumpsByTable,
    /// A return, or what never goes on.
    Ends,
    Unknown,
}

#[derive(Clone, Copy, PartialEq, Eq, Debug)]
pub struct Instruction {
    pub length: usize,
    pub effect: Effect,
}

/// The stack pointer's number among the registers.
const RSP: u8 = 4;

/// Where the operands of an instruction stand.
#[derive(Clone, Copy, PartialEq, Eq)]
enum Form {
    /// No operand byte; so many bytes of a constant.
    Plain(usize),
    /// An operand byte and what it asks for; then so many bytes of a constant.
    Operands(usize),
}

/// The maps of instructions: one byte, and those behind 0f, 0f 38 and 0f 3a.
#[derive(Clone, Copy, PartialEq, Eq)]
enum Map {
    One,
    Two,
    Three38,
    Three3a,
}

/// The prefixes that count here.
#[derive(Clone, Copy, Default)]
struct Prefixes {
    /// 66: constants of two bytes.
    short: bool,
    /// 67: addresses of four bytes.
    address: bool,
    /// 40 to 4f, or 0.
    rex: u8,
    /// The newer encodings' prefixes, which have no room for the stack pointer but as an address.
    vector: bool,
}

impl Prefixes {
    fn wide(self) -> bool {
        self.rex & 8 != 0
    }
}

/// The operand byte: two registers, or a register and a place in memory.
#[derive(Clone, Copy)]
struct Operands {
    /// The register field, as a register's number or a part of the opcode.
    register: u8,
    /// The other register; none if it is a place in memory.
    other: Option<u8>,
}

/// The first instruction of some code; nothing if it isn't known, or cut short.
pub fn instruction(code: &[u8]) -> Option<Instruction> {
    let (prefixes, map, opcode_at) = head(code)?;
    let opcode = *code.get(opcode_at)?;
    let after = opcode_at + 1;
    let (operands, address, constant) = match form(map, opcode, prefixes, code.get(after).copied())? {
        Form::Plain(constant) => (None, 0, constant),
        Form::Operands(constant) => {
            let byte = *code.get(after)?;
            let operands = Operands {
                register: (byte >> 3 & 7) | (prefixes.rex & 4) << 1,
                other: (byte >> 6 == 3).then_some((byte & 7) | (prefixes.rex & 1) << 3),
            };
            (Some(operands), address(&code[after..])?, constant)
        }
    };
    let constant_at = after + address;
    let length = constant_at + constant;
    let constant = signed(code.get(constant_at..length)?);
    let effect = match map {
        _ if prefixes.vector => Effect::None,
        Map::One => one(opcode, prefixes, operands, constant, &code[after..]),
        Map::Two => two(opcode, operands, constant),
        _ => Effect::None,
    };
    Some(Instruction { length, effect })
}

/// The prefixes, the map, and where the opcode stands.
fn head(code: &[u8]) -> Option<(Prefixes, Map, usize)> {
    let mut prefixes = Prefixes::default();
    let mut at = 0;
    loop {
        match *code.get(at)? {
            0x66 => prefixes.short = true,
            0x67 => prefixes.address = true,
            0x26 | 0x2e | 0x36 | 0x3e | 0x64 | 0x65 | 0xf0 | 0xf2 | 0xf3 => (),
            _ => break,
        }
        at += 1;
    }
    let numbered = |number: u8| match number {
        1 | 5 => Some(Map::Two),
        2 | 6 => Some(Map::Three38),
        3 => Some(Map::Three3a),
        _ => None,
    };
    match code[at] {
        0xc5 => {
            prefixes.vector = true;
            return Some((prefixes, Map::Two, at + 2));
        }
        0xc4 => {
            prefixes.vector = true;
            return Some((prefixes, numbered(code.get(at + 1)? & 0x1f)?, at + 3));
        }
        0x62 => {
            prefixes.vector = true;
            return Some((prefixes, numbered(code.get(at + 1)? & 7)?, at + 4));
        }
        rex @ 0x40..=0x4f => {
            prefixes.rex = rex;
            at += 1;
        }
        _ => (),
    }
    Some(match code.get(at..at + 2) {
        Some([0x0f, 0x38]) => (prefixes, Map::Three38, at + 2),
        Some([0x0f, 0x3a]) => (prefixes, Map::Three3a, at + 2),
        Some([0x0f, _]) => (prefixes, Map::Two, at + 1),
        _ => (prefixes, Map::One, at),
    })
}

/// The form of an opcode; nothing if there is no such instruction in 64-bit code. `next` is the byte behind it.
fn form(map: Map, opcode: u8, prefixes: Prefixes, next: Option<u8>) -> Option<Form> {
    use Form::{Operands, Plain};
    // A constant is four bytes, or two, where it isn't said to be one or eight.
    let full = if prefixes.short && !prefixes.wide() { 2 } else { 4 };
    let register = next.unwrap_or(0) >> 3 & 7;
    Some(match (map, opcode) {
        (Map::Three38, _) => Operands(0),
        (Map::Three3a, _) => Operands(1),
        (Map::One, 0x00..=0x3f) => match opcode & 7 {
            0..=3 => Operands(0),
            4 => Plain(1),
            5 => Plain(full),
            _ => return None,
        },
        (Map::One, 0x50..=0x5f) => Plain(0),
        (Map::One, 0x63 | 0x84..=0x8f) => Operands(0),
        (Map::One, 0x68) => Plain(full),
        (Map::One, 0x69 | 0x81 | 0xc7) => Operands(full),
        (Map::One, 0x6a | 0x70..=0x7f | 0xa8 | 0xb0..=0xb7 | 0xcd | 0xe0..=0xe7 | 0xeb) => Plain(1),
        (Map::One, 0x6b | 0x80 | 0x83 | 0xc0 | 0xc1 | 0xc6) => Operands(1),
        (Map::One, 0x6c..=0x6f | 0x90..=0x99 | 0x9b..=0x9f | 0xa4..=0xa7 | 0xaa..=0xaf) => Plain(0),
        (Map::One, 0xa0..=0xa3) => Plain(if prefixes.address { 4 } else { 8 }),
        (Map::One, 0xa9) => Plain(full),
        (Map::One, 0xb8..=0xbf) => Plain(if prefixes.wide() { 8 } else { full }),
        (Map::One, 0xc2 | 0xca) => Plain(2),
        (Map::One, 0xc8) => Plain(3),
        (Map::One, 0xc3 | 0xc9 | 0xcb | 0xcc | 0xcf | 0xd7 | 0xec..=0xef | 0xf1 | 0xf4 | 0xf5 | 0xf8..=0xfd) => {
            Plain(0)
        }
        (Map::One, 0xd0..=0xd3 | 0xd8..=0xdf | 0xfe | 0xff) => Operands(0),
        (Map::One, 0xe8 | 0xe9) => Plain(4),
        (Map::One, 0xf6) => Operands(usize::from(register < 2)),
        (Map::One, 0xf7) => Operands(if register < 2 { full } else { 0 }),
        (Map::One, _) => return None,
        (Map::Two, 0x04 | 0x0a | 0x0c | 0x24..=0x27 | 0x36 | 0x39 | 0x3b..=0x3f | 0xa6 | 0xa7) => return None,
        (Map::Two, 0x05..=0x0b | 0x0e | 0x30..=0x37 | 0x77 | 0xa0..=0xa2 | 0xa8..=0xaa | 0xc8..=0xcf) => Plain(0),
        (Map::Two, 0x80..=0x8f) => Plain(4),
        (Map::Two, 0x0f | 0x70..=0x73 | 0xa4 | 0xac | 0xba | 0xc2 | 0xc4..=0xc6) => Operands(1),
        (Map::Two, _) => Operands(0),
    })
}

/// The bytes of the operand byte and of the address behind it.
fn address(code: &[u8]) -> Option<usize> {
    let byte = *code.first()?;
    let (kind, base) = (byte >> 6, byte & 7);
    if kind == 3 {
        return Some(1);
    }
    let indexed = base == 4;
    let base = if indexed { code.get(1)? & 7 } else { base };
    let distance = match kind {
        0 if base == 5 => 4,
        0 => 0,
        1 => 1,
        _ => 4,
    };
    Some(1 + usize::from(indexed) + distance)
}

/// A constant's value, low byte first; of eight bytes the lower half.
fn signed(bytes: &[u8]) -> i32 {
    match *bytes {
        [byte] => i32::from(byte as i8),
        [low, high] => i32::from(i16::from_le_bytes([low, high])),
        [a, b, c, d, ..] => i32::from_le_bytes([a, b, c, d]),
        _ => 0,
    }
}

/// The effect of an instruction of the first map; `rest` begins with the operand byte, where there is one.
fn one(opcode: u8, prefixes: Prefixes, operands: Option<Operands>, constant: i32, rest: &[u8]) -> Effect {
    let Some(Operands { register, other }) = operands else {
        return match opcode {
            // push and pop of a register, of a constant, of the flags; pop rsp; mov rsp or xchg with it; enter, leave
            0x50..=0x5f | 0x68 | 0x6a | 0x9c | 0x9d if prefixes.short => Effect::Unknown,
            0x5c | 0x94 | 0xbc if prefixes.rex & 1 == 0 => Effect::Unknown,
            0x50..=0x57 | 0x68 | 0x6a | 0x9c => Effect::Moves(8),
            0x58..=0x5f | 0x9d => Effect::Moves(-8),
            0xc8 | 0xc9 => Effect::Unknown,
            0x70..=0x7f | 0xe0..=0xe3 => Effect::MayJump(constant),
            0xe9 | 0xeb => Effect::Jumps(constant),
            // ret, int3, hlt
            0xc2 | 0xc3 | 0xcc | 0xf4 => Effect::Ends,
            _ => Effect::None,
        };
    };
    let own = other == Some(RSP);
    match opcode {
        // jmp, push and pop, by a register or a place in memory
        0xff if register & 7 == 4 => Effect::JumpsByTable,
        0xff if register & 7 == 6 => Effect::Moves(8),
        0x8f if !own => Effect::Moves(-8),
        // add, sub and cmp with a constant; the rest of their kind
        0x81 | 0x83 if own => match register & 7 {
            _ if !prefixes.wide() => Effect::Unknown,
            0 => Effect::Moves(-i64::from(constant)),
            5 => Effect::Moves(i64::from(constant)),
            7 => Effect::None,
            _ => Effect::Unknown,
        },
        // lea rsp, [rsp + constant]
        0x8d if register == RSP => match rest {
            [0x64, 0x24, distance, ..] if prefixes.rex == 0x48 => Effect::Moves(-i64::from(signed(&[*distance]))),
            [0xa4, 0x24, a, b, c, d, ..] if prefixes.rex == 0x48 => {
                Effect::Moves(-i64::from(i32::from_le_bytes([*a, *b, *c, *d])))
            }
            _ => Effect::Unknown,
        },
        0x8d => Effect::None,
        // cmp and test change neither side.
        0x38..=0x3b | 0x84 | 0x85 => Effect::None,
        // In operations on bytes register 4 is ah, unless there is a prefix.
        0x00..=0x37 | 0x80 | 0x86 | 0x88 | 0x8a | 0xc0 | 0xc6 | 0xd0 | 0xd2 | 0xf6 | 0xfe
            if opcode & 1 == 0 && prefixes.rex == 0 =>
        {
            Effect::None
        }
        // One register and a part of the opcode.
        0x80..=0x83 | 0x8f | 0xc0 | 0xc1 | 0xc6 | 0xc7 | 0xd0..=0xd3 | 0xf6 | 0xf7 | 0xfe | 0xff => unless(own),
        // Two registers, or one and memory. An operation and mov write to the one that the opcode says; xchg to both.
        0x86 | 0x87 => unless(own || register == RSP),
        0x00..=0x37 | 0x88..=0x8b if opcode & 2 == 0 => unless(own),
        0x00..=0x37 | 0x88..=0x8b | 0x63 | 0x69 | 0x6b => unless(register == RSP),
        // mov to and from segments, and the old floating point
        _ => Effect::None,
    }
}

/// The effect of an instruction of the second map. No compiler makes an address in the stack pointer by any of them,
/// but a conditional mov is looked at.
fn two(opcode: u8, operands: Option<Operands>, constant: i32) -> Effect {
    match (opcode, operands) {
        (0x80..=0x8f, _) => Effect::MayJump(constant),
        // push and pop of fs and gs
        (0xa0 | 0xa8, _) => Effect::Moves(8),
        (0xa1 | 0xa9, _) => Effect::Moves(-8),
        (0x40..=0x4f, Some(Operands { register, .. })) => unless(register == RSP),
        // ud2
        (0x0b, _) => Effect::Ends,
        _ => Effect::None,
    }
}

fn unless(touched: bool) -> Effect {
    if touched {
        Effect::Unknown
    } else {
        Effect::None
    }
}

/// The compiler's loop that takes step after step, a page or less, and touches each, as one instruction.
pub fn probing_loop(code: &[u8]) -> Option<Instruction> {
    let (taken, head) = match *code {
        // mov r11, rsp; sub r11, constant
        [0x49, 0x89, 0xe3, 0x49, 0x81, 0xeb, a, b, c, d, ..] => (i64::from(i32::from_le_bytes([a, b, c, d])), 10),
        // lea r11, [rsp - constant]
        [0x4c, 0x8d, 0x9c, 0x24, a, b, c, d, ..] => (-i64::from(i32::from_le_bytes([a, b, c, d])), 8),
        _ => return None,
    };
    // sub rsp, step; mov qword [rsp], 0; cmp rsp, r11; jne to the sub
    let (first, rest) = code[head..].split_at_checked(7)?;
    let [0x48, 0x81, 0xec, a, b, c, d] = *first else {
        return None;
    };
    let step = i64::from(i32::from_le_bytes([a, b, c, d]));
    let body = [0x48, 0xc7, 4, 0x24, 0, 0, 0, 0, 0x4c, 0x39, 0xdc, 0x75, 0xec];
    let whole = rest.starts_with(&body) && (1..=4096).contains(&step) && taken > 0 && taken % step == 0;
    whole.then_some(Instruction {
        length: head + first.len() + body.len(),
        effect: Effect::Moves(taken),
    })
}

/// Whether an instruction only fills up: nop in all its lengths, or int3.
pub fn fills(instruction: &[u8]) -> bool {
    let prefixes = instruction
        .iter()
        .take_while(|byte| [0x66, 0x2e].contains(byte))
        .count();
    matches!(instruction[prefixes..], [0x90] | [0xcc] | [0x0f, 0x1f, ..])
}

#[cfg(test)]
mod tests {
    use super::*;

    fn read(code: &[u8]) -> (usize, Effect) {
        let Instruction { length, effect } = instruction(code).expect("an instruction");
        (length, effect)
    }

    /// Each with a byte behind it that is no part of it.
    #[test]
    fn lengths() {
        let instructions: [&[u8]; 30] = [
            &[0x90],                                           // nop
            &[0xe8, 1, 0, 0, 0],                               // call
            &[0x0f, 0xa2],                                     // cpuid
            &[0x66, 0x2e, 0x0f, 0x1f, 0x84, 0, 0, 0, 0, 0],    // a long nop
            &[0x48, 0x8b, 0x04, 0x24],                         // mov rax, [rsp]
            &[0x48, 0x8b, 0x84, 0x24, 0xe0, 0x10, 0, 0],       // mov rax, [rsp + 4320]
            &[0x8b, 0x05, 0, 0, 0, 0],                         // mov eax, [rip]
            &[0x8b, 0x04, 0x25, 0, 0, 0, 0],                   // mov eax, [0]
            &[0x41, 0x83, 0x7c, 0x24, 0x08, 0x00],             // cmp dword [r12 + 8], 0
            &[0x48, 0xb8, 1, 2, 3, 4, 5, 6, 7, 8],             // movabs rax
            &[0xb8, 1, 2, 3, 4],                               // mov eax
            &[0x66, 0xb8, 1, 2],                               // mov ax
            &[0x66, 0xc7, 0x44, 0x24, 0x0e, 0x3a, 0x20],       // mov word [rsp + 14], 8250
            &[0x48, 0xc7, 0x04, 0x24, 0, 0, 0, 0],             // mov qword [rsp], 0
            &[0xf6, 0xc1, 1],                                  // test cl, 1
            &[0xf7, 0xc1, 1, 0, 0, 0],                         // test ecx, 1
            &[0xf7, 0xf1],                                     // div ecx
            &[0x0f, 0xb6, 0x07],                               // movzx eax, byte [rdi]
            &[0x0f, 0x57, 0xc0],                               // xorps xmm0, xmm0
            &[0x66, 0x0f, 0x6f, 0x05, 0, 0, 0, 0],             // movdqa xmm0, [rip]
            &[0x66, 0x0f, 0x70, 0xc0, 0x44],                   // pshufd
            &[0x66, 0x0f, 0x3a, 0x16, 0xc0, 1],                // pextrd
            &[0x66, 0x0f, 0x38, 0x00, 0xc1],                   // pshufb
            &[0xf3, 0x0f, 0x6f, 0x06],                         // movdqu xmm0, [rsi]
            &[0xc5, 0xf8, 0x77],                               // vzeroupper
            &[0xc5, 0xfa, 0x6f, 0x06],                         // vmovdqu xmm0, [rsi]
            &[0xc4, 0xe2, 0xf9, 0xf7, 0xc1],                   // shlx
            &[0xc4, 0xe3, 0x7d, 0x39, 0xc1, 1],                // vextracti128
            &[0x62, 0xf1, 0xfe, 0x48, 0x6f, 0x44, 0x24, 0x01], // vmovdqu64 zmm0, [rsp + 64]
            &[0xff, 0xd0],                                     // call rax
        ];
        for code in instructions {
            let longer = [code, &[0x90]].concat();
            assert_eq!(read(&longer), (code.len(), Effect::None), "{code:x?}");
            assert_eq!(instruction(&code[..code.len() - 1]), None, "{code:x?}");
        }
        for unknown in [0x06, 0x27, 0x60, 0x9a, 0xce, 0xd4, 0xea] {
            assert_eq!(instruction(&[unknown; 15]), None, "{unknown:x}");
        }
    }

    #[test]
    fn ways() {
        assert_eq!(read(&[0x74, 0xfe]), (2, Effect::MayJump(-2)));
        assert_eq!(read(&[0x0f, 0x84, 0, 1, 0, 0]), (6, Effect::MayJump(256)));
        assert_eq!(read(&[0xeb, 2]), (2, Effect::Jumps(2)));
        assert_eq!(read(&[0xe9, 0xff, 0xff, 0xff, 0xff]), (5, Effect::Jumps(-1)));
        assert_eq!(read(&[0xff, 0xe0]), (2, Effect::JumpsByTable));
        assert_eq!(read(&[0xff, 0x24, 0xc5, 0, 0, 0, 0]), (7, Effect::JumpsByTable));
        let ends: [&[u8]; 4] = [&[0xc3], &[0xc2, 8, 0], &[0x0f, 0x0b], &[0xcc]];
        for code in ends {
            assert_eq!(read(code), (code.len(), Effect::Ends));
        }
        let filling: [&[u8]; 4] = [
            &[0x90],
            &[0x66, 0x90],
            &[0xcc],
            &[0x66, 0x2e, 0x0f, 0x1f, 0x84, 0, 0, 0, 0, 0],
        ];
        assert!(filling.into_iter().all(fills));
        assert!(!fills(&[0xc3]) && !fills(&[0x66, 0x0f, 0x6f, 0xc0]));
    }

    #[test]
    fn effects() {
        let moves = |code: &[u8], by: i64| assert_eq!(read(code), (code.len(), Effect::Moves(by)), "{code:x?}");
        moves(&[0x55], 8);
        moves(&[0x41, 0x57], 8);
        moves(&[0x6a, 1], 8);
        moves(&[0x68, 0, 1, 0, 0], 8);
        moves(&[0xff, 0x75, 0x10], 8);
        moves(&[0xff, 0xb4, 0x24, 0, 1, 0, 0], 8);
        moves(&[0x48, 0x83, 0xec, 0x28], 40);
        moves(&[0x48, 0x81, 0xec, 0xa8, 0, 0, 0], 168);
        // add rsp, -128; lea rsp, [rsp - 8]; lea rsp, [rsp - 4096]
        moves(&[0x48, 0x83, 0xc4, 0x80], 128);
        moves(&[0x48, 0x8d, 0x64, 0x24, 0xf8], 8);
        moves(&[0x48, 0x8d, 0xa4, 0x24, 0, 0xf0, 0xff, 0xff], 4096);
        // pop rbp; pop r12; pop [rax]; add rsp, 40; sub rsp, -128; lea rsp, [rsp + 8]
        moves(&[0x5d], -8);
        moves(&[0x41, 0x5c], -8);
        moves(&[0x8f, 0x00], -8);
        moves(&[0x48, 0x83, 0xc4, 0x28], -40);
        moves(&[0x48, 0x83, 0xec, 0x80], -128);
        moves(&[0x48, 0x8d, 0x64, 0x24, 0x08], -8);

        let none: [&[u8]; 11] = [
            &[0x49, 0x89, 0xe6],       // mov r14, rsp
            &[0x48, 0x8b, 0xc4],       // mov rax, rsp
            &[0x48, 0x89, 0x24, 0x24], // mov [rsp], rsp
            &[0x48, 0x01, 0xe2],       // add rdx, rsp
            &[0x48, 0x2b, 0xc4],       // sub rax, rsp
            &[0x4c, 0x39, 0xdc],       // cmp rsp, r11
            &[0x48, 0x0f, 0x44, 0xc4], // cmove rax, rsp
            &[0x49, 0x83, 0xec, 0x08], // sub r12, 8
            &[0x4d, 0x29, 0xe0],       // sub r8, r12
            &[0x0f, 0x29, 0x24, 0x24], // movaps [rsp], xmm4
            &[0x00, 0xe1],             // add cl, ah
        ];
        for code in none {
            assert_eq!(read(code), (code.len(), Effect::None), "{code:x?}");
        }
        let unknown: [&[u8]; 14] = [
            &[0x5c],                   // pop rsp
            &[0xc9],                   // leave
            &[0xc8, 0, 0, 0],          // enter
            &[0x94],                   // xchg rsp, rax
            &[0x83, 0xec, 0x08],       // sub esp, 8
            &[0x48, 0x83, 0xe4, 0xf0], // and rsp, -16
            &[0x48, 0x29, 0xc4],       // sub rsp, rax
            &[0x48, 0x2b, 0x20],       // sub rsp, [rax]
            &[0x48, 0x89, 0xc4],       // mov rsp, rax
            &[0x48, 0x8b, 0x65, 0x88], // mov rsp, [rbp - 120]
            &[0x48, 0x8d, 0x65, 0xd8], // lea rsp, [rbp - 40]
            &[0x48, 0x0f, 0x44, 0xe0], // cmove rsp, rax
            &[0x48, 0x8d, 0x24, 0x04], // lea rsp, [rsp + rax]
            &[0x8f, 0xc4],             // pop rsp, the long way
        ];
        for code in unknown {
            assert_eq!(read(code), (code.len(), Effect::Unknown), "{code:x?}");
        }
    }
}
