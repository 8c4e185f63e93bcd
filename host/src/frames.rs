//! The stack frames of functions, read off an object file for x86-64 (ELF). A frame is the return address and all that
//! the function's own code takes off the stack pointer; where that can't be read with certainty there is no answer.

mod x86;

use crate::files;
use std::collections::BTreeSet;
use std::path::Path;
use x86::{Effect, Instruction};

/// A return address, or a pushed word.
const WORD: u64 = 8;

/// The frame of a function.
#[derive(Clone, PartialEq, Eq, Debug)]
pub struct Frame {
    pub name: String,
    pub bytes: u64,
}

/// The frames of these functions, in the object's order, or of all its functions where none is named. A function whose
/// name goes on behind a dot (a part or a copy that the compiler made) counts as well. One that isn't there stands in
/// its callers' frames, so a name may be missing; but not all.
pub fn read(object: &Path, names: &[&str]) -> Result<Vec<Frame>, String> {
    let told = |wrong: String| files::told(object, wrong);
    let bytes = files::bytes(object)?;
    let wanted = |own: &str| {
        let is = |name: &&str| {
            own.strip_prefix(*name)
                .is_some_and(|rest| rest.is_empty() || rest.starts_with('.'))
        };
        names.is_empty() || names.iter().any(is)
    };
    let mut frames = Vec::new();
    for function in functions(&bytes).map_err(told)? {
        if wanted(&function.name) {
            let bytes = frame(&function).map_err(|wrong| told(format!("{}: {wrong}", function.name)))?;
            let name = function.name;
            frames.push(Frame { name, bytes });
        }
    }
    if frames.is_empty() {
        return Err(told(format!("none of these functions is there: {}", names.join(", "))));
    }
    Ok(frames)
}

/// The deepest that a function's code goes.
fn frame(function: &Function) -> Result<u64, String> {
    let mut followed = Followed {
        function,
        depths: vec![None; function.code.len()],
        deepest: WORD,
        tables: BTreeSet::new(),
    };
    followed.follow(0, WORD)?;
    while let Some(at) = followed.left()? {
        match followed.tables.first() {
            Some(depth) if followed.tables.len() == 1 => followed.follow(at, *depth)?,
            _ => return Err(format!("what leads to {at:#x} isn't seen")),
        }
    }
    Ok(followed.deepest)
}

/// A function's code as far as it was followed. Compiled code is as deep at each place however it came there; where
/// that isn't so, or can't be seen, there is no answer.
struct Followed<'f> {
    function: &'f Function<'f>,
    /// How deep the stack is before each instruction that was met.
    depths: Vec<Option<u64>>,
    deepest: u64,
    /// How deep it is where a jump goes by a table.
    tables: BTreeSet<u64>,
}

impl Followed<'_> {
    /// Follows all ways from a place on, where the stack is so deep.
    fn follow(&mut self, from: usize, depth: u64) -> Result<(), String> {
        let mut ways = vec![(from, depth)];
        while let Some((at, depth)) = ways.pop() {
            match self.depths.get(at) {
                None => return Err(format!("the code goes on at {at:#x}, behind its end")),
                Some(Some(known)) if *known == depth => continue,
                Some(Some(known)) => return Err(format!("the stack is {known} and {depth} bytes deep at {at:#x}")),
                Some(None) => self.depths[at] = Some(depth),
            }
            let read = read_at(self.function.code, at)?;
            let next = at + read.length;
            // A jump to another function, in place of a call and a return, leads to no place here.
            let linked = next.checked_sub(4).is_some_and(|at| self.function.linked.contains(&at));
            let to = |by: i32| next.checked_add_signed(by as isize).unwrap_or(usize::MAX);
            match read.effect {
                Effect::None => ways.push((next, depth)),
                Effect::Moves(by) => {
                    let depth = depth.checked_add_signed(by).filter(|depth| *depth >= WORD);
                    let depth = depth.ok_or_else(|| format!("more is given back than was taken at {at:#x}"))?;
                    self.deepest = self.deepest.max(depth);
                    ways.push((next, depth));
                }
                Effect::MayJump(_) if linked => ways.push((next, depth)),
                Effect::MayJump(by) => ways.extend([(next, depth), (to(by), depth)]),
                Effect::Jumps(_) if linked => (),
                Effect::Jumps(by) => ways.push((to(by), depth)),
                Effect::JumpsByTable => {
                    self.tables.insert(depth);
                }
                Effect::Ends => (),
                Effect::Unknown => {
                    return Err(format!(
                        "at {at:#x} the stack pointer is changed in a way that isn't read"
                    ))
                }
            }
        }
        Ok(())
    }

    /// The first instruction that nothing has led to and that doesn't only fill up: it is reached by a table.
    fn left(&self) -> Result<Option<usize>, String> {
        let code = self.function.code;
        let mut at = 0;
        while at < code.len() {
            let next = at + read_at(code, at)?.length;
            if self.depths[at].is_none() && !x86::fills(&code[at..next]) {
                return Ok(Some(at));
            }
            at = next;
        }
        Ok(None)
    }
}

fn read_at(code: &[u8], at: usize) -> Result<Instruction, String> {
    let read = match x86::probing_loop(&code[at..]) {
        Some(whole) => Some(whole),
        None => x86::instruction(&code[at..]),
    };
    read.ok_or_else(|| format!("no instruction is known at {at:#x}"))
}

/// A function of an object: its name, its code, and the places in it that the linker fills in.
struct Function<'o> {
    name: String,
    code: &'o [u8],
    linked: BTreeSet<usize>,
}

// The kinds of sections that are looked at, the lengths of their records, and the kind of symbol.
const SYMBOLS: u64 = 2;
const LINKS: u64 = 4;
const SECTION: usize = 64;
const SYMBOL: usize = 24;
const LINK: usize = 24;
const CODE: u8 = 2;

/// The functions that an object defines.
fn functions(object: &[u8]) -> Result<Vec<Function<'_>>, String> {
    let header = object.starts_with(b"\x7fELF\x02\x01");
    if !header || number(object, 16, 2)? != 1 || number(object, 18, 2)? != 62 {
        return Err("no ELF object for x86-64".to_string());
    }
    let heads = part(object, number(object, 40, 8)?, number(object, 60, 2)? * SECTION as u64)?;
    let heads: Vec<&[u8]> = heads.chunks_exact(SECTION).collect();
    let section = |index: u64| -> Result<&[u8], String> {
        let head = heads.get(index as usize).ok_or("a section is missing")?;
        part(object, number(head, 24, 8)?, number(head, 32, 8)?)
    };
    // The section and the place in it of every link.
    let mut links: Vec<(u64, u64)> = Vec::new();
    for (head, index) in heads.iter().zip(0..) {
        if number(head, 4, 4)? == LINKS {
            for link in section(index)?.chunks_exact(LINK) {
                links.push((number(head, 44, 4)?, number(link, 0, 8)?));
            }
        }
    }
    let mut functions = Vec::new();
    for (head, index) in heads.iter().zip(0..) {
        if number(head, 4, 4)? != SYMBOLS {
            continue;
        }
        let names = section(number(head, 40, 4)?)?;
        for symbol in section(index)?.chunks_exact(SYMBOL) {
            let place = number(symbol, 6, 2)?;
            // Section 0 is no section: the function is another object's.
            if symbol[4] & 15 != CODE || place == 0 {
                continue;
            }
            let name = names.get(number(symbol, 0, 4)? as usize..).unwrap_or_default();
            let name = name.split(|byte| *byte == 0).next().unwrap_or_default();
            let start = number(symbol, 8, 8)?;
            let own = links.iter().filter(|(section, at)| *section == place && *at >= start);
            functions.push(Function {
                name: String::from_utf8_lossy(name).into_owned(),
                code: part(section(place)?, start, number(symbol, 16, 8)?)?,
                linked: own.map(|(_, at)| (at - start) as usize).collect(),
            });
        }
    }
    Ok(functions)
}

/// A number of so many bytes, low byte first.
fn number(bytes: &[u8], at: usize, size: usize) -> Result<u64, String> {
    let own = bytes.get(at..at + size).ok_or("the file is cut short")?;
    Ok(own.iter().rev().fold(0, |number, byte| 256 * number + u64::from(*byte)))
}

fn part(bytes: &[u8], from: u64, size: u64) -> Result<&[u8], String> {
    let end = from.checked_add(size).filter(|end| *end <= bytes.len() as u64);
    match end {
        Some(end) => Ok(&bytes[from as usize..end as usize]),
        None => Err("the file is cut short".to_string()),
    }
}

#[cfg(test)]
mod tests {
    use super::*;

    const PUSHES: [u8; 10] = [0x55, 0x41, 0x57, 0x41, 0x56, 0x41, 0x55, 0x41, 0x54, 0x53];
    const TAKE_4096: [u8; 7] = [0x48, 0x81, 0xec, 0, 0x10, 0, 0];
    const PROBE: [u8; 8] = [0x48, 0xc7, 4, 0x24, 0, 0, 0, 0];

    fn linked(code: &[u8], linked: &[usize]) -> Result<u64, String> {
        super::frame(&Function {
            name: String::new(),
            code,
            linked: linked.iter().copied().collect(),
        })
    }

    fn frame(code: &[u8]) -> Result<u64, String> {
        linked(code, &[])
    }

    #[test]
    fn frames_of_code() {
        assert_eq!(frame(&[0xc3]), Ok(8));
        let receive = [
            &PUSHES[..],
            &TAKE_4096,
            &PROBE,
            &[0x48, 0x81, 0xec, 168, 0, 0, 0],
            &[0xc3],
        ]
        .concat();
        assert_eq!(frame(&receive), Ok(8 + 6 * 8 + 4096 + 168));
        // push rax; call; pop rcx; sub rsp, 24; add rsp, 24; ret: one after the other.
        let twice = [
            0x50, 0xe8, 0, 0, 0, 0, 0x59, 0x48, 0x83, 0xec, 24, 0x48, 0x83, 0xc4, 24, 0xc3,
        ];
        assert_eq!(frame(&twice), Ok(32));
        // In a loop as well: push rax; call; pop rcx; jne back; ret.
        assert_eq!(frame(&[0x50, 0xe8, 0, 0, 0, 0, 0x59, 0x75, 0xf7, 0xc3]), Ok(16));
        // A way that leaves early, before anything is taken: je to the ret; push rax; pop rcx; ret.
        assert_eq!(frame(&[0x74, 2, 0x50, 0x59, 0xc3]), Ok(16));
    }

    #[test]
    fn a_probing_loop() {
        // mov r11, rsp; sub r11, 303104; the loop; sub rsp, 1688
        let end = [0x4c, 0x39, 0xdc, 0x75, 0xec, 0x48, 0x81, 0xec, 0x98, 6, 0, 0, 0xc3];
        let rest = [&TAKE_4096[..], &PROBE, &end].concat();
        let head = [0x49, 0x89, 0xe3, 0x49, 0x81, 0xeb, 0, 0xa0, 4, 0];
        assert_eq!(frame(&[&head[..], &rest].concat()), Ok(8 + 303_104 + 1_688));
        // lea r11, [rsp - 303104]
        let other = [0x4c, 0x8d, 0x9c, 0x24, 0, 0x60, 0xfb, 0xff];
        assert_eq!(frame(&[&other[..], &rest].concat()), Ok(8 + 303_104 + 1_688));
        // In steps of 3072, as far as so many steps go; 303104 is no number of them.
        let step = [0x48, 0x81, 0xec, 0, 0xc, 0, 0];
        let steps = |taken: u32| {
            let head = [&[0x49, 0x89, 0xe3, 0x49, 0x81, 0xeb], &taken.to_le_bytes()[..]].concat();
            frame(&[&head[..], &step, &PROBE, &end].concat())
        };
        assert_eq!(steps(402_432), Ok(8 + 402_432 + 1_688));
        assert_eq!(steps(303_104).unwrap_err(), "the stack is 8 and 3080 bytes deep at 0xa");
        // Without its head nothing says how far it goes; nor with a jump to elsewhere.
        assert_eq!(frame(&rest).unwrap_err(), "the stack is 8 and 4104 bytes deep at 0x0");
        let mut elsewhere = [&head[..], &rest].concat();
        elsewhere[head.len() + 19] = 0xe2;
        assert_eq!(
            frame(&elsewhere).unwrap_err(),
            "the stack is 8 and 4104 bytes deep at 0x0"
        );
    }

    #[test]
    fn tables_and_other_functions() {
        // push rax; jmp rax; then, by the table: sub rsp, 8; add rsp, 16; ret; and a filling before it.
        let by_table = [0x50, 0xff, 0xe0, 0x90, 0x48, 0x83, 0xec, 8, 0x48, 0x83, 0xc4, 16, 0xc3];
        assert_eq!(frame(&by_table), Ok(24));
        // The same without a table, and with tables at two depths.
        let cut_off = [0x50, 0xc3, 0xcc, 0x90, 0x48, 0x83, 0xec, 8, 0xc3];
        assert_eq!(frame(&cut_off).unwrap_err(), "what leads to 0x4 isn't seen");
        let two_depths = [0x74, 3, 0x50, 0xff, 0xe0, 0xff, 0xe1, 0x59, 0xc3];
        assert_eq!(frame(&two_depths).unwrap_err(), "what leads to 0x7 isn't seen");
        // push rax; je; pop rcx; jmp to another function; pop rcx; ret
        let handed_on = [0x50, 0x74, 6, 0x59, 0xe9, 0, 0, 0, 0, 0x59, 0xc3];
        assert_eq!(linked(&handed_on, &[5]), Ok(16));
        assert_eq!(
            frame(&handed_on).unwrap_err(),
            "the stack is 16 and 8 bytes deep at 0x9"
        );
        // jne to another function; ret
        let perhaps = [0x0f, 0x85, 0, 1, 0, 0, 0xc3];
        assert_eq!(linked(&perhaps, &[2]), Ok(8));
        assert_eq!(
            frame(&perhaps).unwrap_err(),
            "the code goes on at 0x106, behind its end"
        );
    }

    #[test]
    fn what_is_not_read_is_told() {
        // sub rsp, rax; mov rsp, rbp; and rsp, -32; leave; lea rsp, [rbp - 8]; pop rsp
        let changes: [&[u8]; 6] = [
            &[0x48, 0x29, 0xc4],
            &[0x48, 0x89, 0xec],
            &[0x48, 0x83, 0xe4, 0xe0],
            &[0xc9],
            &[0x48, 0x8d, 0x65, 0xf8],
            &[0x5c],
        ];
        for change in changes {
            let told = frame(&[&[0x90], change].concat()).unwrap_err();
            assert_eq!(told, "at 0x1 the stack pointer is changed in a way that isn't read");
        }
        // A push in a loop: push rax; jmp back.
        assert_eq!(
            frame(&[0x50, 0xeb, 0xfd]).unwrap_err(),
            "the stack is 8 and 16 bytes deep at 0x0"
        );
        assert_eq!(
            frame(&[0x59, 0xc3]).unwrap_err(),
            "more is given back than was taken at 0x0"
        );
        // No end, no instruction, and half of one.
        assert_eq!(frame(&[0x90]).unwrap_err(), "the code goes on at 0x1, behind its end");
        assert!(frame(&[]).is_err());
        assert_eq!(frame(&[0x06]).unwrap_err(), "no instruction is known at 0x0");
        assert!(frame(&[0x48, 0x81, 0xec, 0]).is_err());
    }
}
