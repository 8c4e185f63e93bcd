//! The frames of an object's functions. The objects are written here, byte for byte.

mod common;

use common::{complains, printed, Folder};

/// push rbp; sub rsp, 40; ret
const SMALL: &[u8] = &[0x55, 0x48, 0x83, 0xec, 40, 0xc3];
/// sub rsp, 4096; ret
const LARGE: &[u8] = &[0x48, 0x81, 0xec, 0, 0x10, 0, 0, 0xc3];
/// leave; ret
const UNREAD: &[u8] = &[0xc9, 0xc3];

/// An object for x86-64: these functions, each in a section of its own, and one that is another object's.
fn object(functions: &[(&str, &[u8])]) -> Vec<u8> {
    let mut names = vec![0];
    let mut symbols = vec![0; 24];
    let mut content: Vec<u8> = Vec::new();
    let mut sections: Vec<[u64; 4]> = vec![[0; 4]];
    let symbol = |name: usize, section: u16, size: usize| {
        let head = [&(name as u32).to_le_bytes()[..], &[2, 0], &section.to_le_bytes()];
        [head.concat(), vec![0; 8], (size as u64).to_le_bytes().to_vec()].concat()
    };
    for (name, code) in functions {
        sections.push([1, 64 + content.len() as u64, code.len() as u64, 0]);
        symbols.extend(symbol(names.len(), sections.len() as u16 - 1, code.len()));
        names.extend(name.bytes().chain([0]));
        content.extend(*code);
    }
    symbols.extend(symbol(names.len(), 0, 0));
    names.extend(b"elsewhere\0");
    let next = sections.len() as u64 + 1;
    sections.push([2, 64 + content.len() as u64, symbols.len() as u64, next]);
    content.extend(symbols);
    sections.push([3, 64 + content.len() as u64, names.len() as u64, 0]);
    content.extend(names);

    let mut object = b"\x7fELF\x02\x01\x01".to_vec();
    object.resize(64, 0);
    object[16] = 1;
    object[18] = 62;
    object[40..48].copy_from_slice(&(64 + content.len() as u64).to_le_bytes());
    object[60..62].copy_from_slice(&(sections.len() as u16).to_le_bytes());
    object.extend(content);
    for [kind, at, size, link] in sections {
        let mut head = [0; 64];
        head[4..12].copy_from_slice(&kind.to_le_bytes());
        head[24..32].copy_from_slice(&at.to_le_bytes());
        head[32..40].copy_from_slice(&size.to_le_bytes());
        head[40..44].copy_from_slice(&(link as u32).to_le_bytes());
        object.extend(head);
    }
    object
}

#[test]
fn the_named_functions() {
    let folder = Folder::new("frames");
    let both = object(&[
        ("room::one", SMALL),
        ("room::one_more", LARGE),
        ("room::one.cold", LARGE),
    ]);
    let file = folder.file("both.o", &both);
    let all = "56 room::one\n4104 room::one_more\n4104 room::one.cold\n";
    assert_eq!(printed(&["frames", &file]), all);
    // A part that the compiler split off counts, another function whose name begins so doesn't.
    assert_eq!(
        printed(&["frames", &file, "room::one"]),
        "56 room::one\n4104 room::one.cold\n"
    );
    // One that was put into its callers is missing.
    assert_eq!(
        printed(&["frames", &file, "room::gone", "room::one_more"]),
        "4104 room::one_more\n"
    );
    let told = complains(&["frames", &file, "room::gone", "elsewhere"]);
    assert!(
        told.ends_with("none of these functions is there: room::gone, elsewhere\n"),
        "{told}"
    );
}

#[test]
fn what_can_not_be_read_is_no_answer() {
    let folder = Folder::new("frames-unread");
    let object = object(&[("small", SMALL), ("unread", UNREAD)]);
    let file = folder.file("unread.o", &object);
    assert_eq!(printed(&["frames", &file, "small"]), "56 small\n");
    let told = complains(&["frames", &file, "small", "unread"]);
    assert!(
        told.contains("unread: at 0x0 the stack pointer is changed in a way that isn't read"),
        "{told}"
    );
    complains(&["frames", &file]);
    // No object, one for another processor, one that is cut short anywhere.
    let text = folder.file("text.o", "no object");
    assert!(complains(&["frames", &text, "small"]).contains("no ELF object for x86-64"));
    let mut other = object.clone();
    other[18] = 183;
    let other = folder.file("other.o", other);
    assert!(complains(&["frames", &other, "small"]).contains("no ELF object for x86-64"));
    for length in (0..object.len()).step_by(7) {
        let cut = folder.file("cut.o", &object[..length]);
        complains(&["frames", &cut, "small"]);
    }
}
