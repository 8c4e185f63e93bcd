//! Authenticity types: the example of docs/DERIVATIONS.md and its neighbours, the processes of `processes/`, and
//! derivations that are damaged.

use host::random::Random;
use host::types::{keeps_apart, tell, verdict, Verdict};
use std::fs;
use std::path::PathBuf;

const ASKED: [u32; 14] = [1, 9, 1, 0, 9, 1, 1, 10, 1, 0, 10, 1, 1, 5];

fn example() -> Vec<u32> {
    let lines = [
        [1, 0, 0, 0, 56, 0, 0, 0, 0],
        [16, 0, 0, 0, 56, 67, 0, 0, 0],
        [18, 1, 0, 0, 56, 64, 0, 71, 1],
        [18, 2, 0, 0, 56, 61, 0, 68, 2],
        [17, 3, 0, 0, 56, 58, 0, 68, 1],
        [17, 4, 0, 0, 56, 55, 0, 0, 0],
    ];
    let things = [9, 1, 0, 9, 1, 1, 10, 1, 0, 10, 1, 1, 5, 1, 1, 0, 1, 1, 1];
    [&[6], lines.concat().as_slice(), &things].concat()
}

fn with(changes: &[(usize, u32)]) -> Vec<u32> {
    let mut words = example();
    for &(place, word) in changes {
        words[place] = word;
    }
    words
}

#[test]
fn the_example_is_safe() {
    assert_eq!(verdict(&ASKED, &example()), Verdict::Safe);
    // The two effects of line 3 in the other order.
    let permuted = with(&[(70, 1), (73, 0), (26, 68), (44, 71)]);
    assert_eq!(verdict(&ASKED, &permuted), Verdict::Safe);
}

#[test]
fn neighbours_of_the_example() {
    let words = example();
    assert_eq!(verdict(&[], &words), Verdict::Another);
    assert_eq!(verdict(&[&ASKED[..], &[5]].concat(), &words), Verdict::Another);
    assert_eq!(verdict(&ASKED, &[]), Verdict::Another);
    // A later line as a premise, and the line itself.
    assert_eq!(verdict(&ASKED, &with(&[(29, 4)])), Verdict::Bad(3));
    assert_eq!(verdict(&ASKED, &with(&[(29, 3)])), Verdict::Bad(3));
    // An effect that is not taken away; a rule that is none; a line more; cut words.
    assert_eq!(verdict(&ASKED, &with(&[(45, 2)])), Verdict::Bad(4));
    assert_eq!(verdict(&ASKED, &with(&[(46, 33)])), Verdict::Bad(5));
    assert_eq!(verdict(&ASKED, &with(&[(0, 7)])), Verdict::Bad(6));
    assert_eq!(verdict(&ASKED, &words[..60]), Verdict::Bad(1));
    // The counts, before all lines.
    assert_eq!(verdict(&ASKED, &with(&[(27, 64)])), Verdict::Bad(2));
    assert_eq!(verdict(&ASKED, &with(&[(27, 65)])), Verdict::Refused(65));
    assert_eq!(
        verdict(&ASKED, &with(&[(1, 0), (18, 70), (27, 65)])),
        Verdict::Refused(70)
    );
    assert_eq!(verdict(&ASKED, &with(&[(0, 1024)])), Verdict::Bad(6));
    assert_eq!(verdict(&ASKED, &with(&[(0, 1025), (27, 65)])), Verdict::Refused(1025));
}

#[test]
fn bound_names() {
    assert!(keeps_apart(&ASKED));
    assert!(!keeps_apart(&[]));
    // new (x : Un); new (x : Un); STOP, and with another name; and with the environment's name.
    assert!(!keeps_apart(&[1, 1, 3, 1, 1, 3, 1, 5]));
    assert!(keeps_apart(&[1, 1, 3, 1, 1, 4, 1, 5]));
    assert!(!keeps_apart(&[2, 3, 1, 1, 1, 3, 1, 5]));
}

fn processes() -> Vec<(String, String)> {
    let folder = PathBuf::from(env!("CARGO_MANIFEST_DIR")).join("../processes");
    let mut found: Vec<(String, String)> = fs::read_dir(folder)
        .expect("the folder of processes")
        .map(|entry| entry.expect("an entry").path())
        .filter(|path| path.extension().is_some_and(|own| own == "process"))
        .map(|path| {
            let name = path.file_stem().expect("a name").to_string_lossy().into_owned();
            (name, fs::read_to_string(&path).expect("a text"))
        })
        .collect();
    found.sort();
    found
}

#[test]
fn the_processes_are_what_their_names_say() {
    let mut counts = [0, 0];
    for (name, text) in processes() {
        let (told, derived) = tell(&text).unwrap_or_else(|mistake| panic!("{name}: {mistake}"));
        let safe = told.starts_with("safe");
        assert_eq!(name.starts_with("safe-"), safe, "{name}: {told}");
        if let Some(derived) = derived {
            assert!(keeps_apart(&derived.asked), "{name} keeps its bound names apart");
            let wanted = if safe { Verdict::Safe } else { Verdict::Another };
            assert_eq!(verdict(&derived.asked, &derived.derivation), wanted, "{name}");
        }
        counts[usize::from(safe)] += 1;
    }
    assert!(counts[1] >= 8 && counts[0] >= 4, "{counts:?}");
}

#[test]
fn damaged_derivations_have_a_verdict() {
    let mut random = Random::new(14);
    let mut met = [0; 4];
    for (name, text) in processes() {
        let Ok((_, Some(derived))) = tell(&text) else { continue };
        for _ in 0..200 {
            let mut words = derived.derivation.clone();
            for _ in 0..1 + random.word() % 3 {
                let place = random.word() as usize % words.len();
                words[place] = match random.word() % 4 {
                    0 => words[place].wrapping_add(1),
                    1 => random.word() as u32 % 35,
                    2 => words[random.word() as usize % words.len()],
                    _ => random.word() as u32,
                };
            }
            if random.word().is_multiple_of(8) {
                words.truncate(random.word() as usize % words.len());
            }
            let own = verdict(&derived.asked, &words);
            if let Verdict::Bad(line) = own {
                // All lines before it pass.
                words[0] = line;
                assert_eq!(
                    verdict(&derived.asked, &words),
                    Verdict::Another,
                    "{name}, before line {line}"
                );
            }
            met[match own {
                Verdict::Safe => 0,
                Verdict::Bad(_) => 1,
                Verdict::Another => 2,
                Verdict::Refused(_) => 3,
            }] += 1;
        }
    }
    assert!(met.iter().all(|&count| count > 0), "{met:?}");
}

#[test]
fn mistakes_in_a_text_are_told_by_their_line() {
    let told = |text: &str| tell(text).map(|_| ()).unwrap_err();
    assert_eq!(
        told("name a : Un\nout a b; stop"),
        "line 2: expected a name that is declared or bound, found `b`"
    );
    assert_eq!(
        told("name a : Un\nname a : Un\nstop"),
        "line 2: expected a name that is not declared yet, found `a`"
    );
    assert_eq!(told("name a : Un\nend a"), "line 2: expected `;`, found the end");
    assert_eq!(told("stop stop"), "line 1: expected `|` or the end, found `stop`");
}
