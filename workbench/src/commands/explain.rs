//! `nghi explain`: a refusal or a warning in plain words, a small example, and the cure.

use crate::arguments::{Call, Command, JSON};
use crate::commands::Output;
use crate::failure::{Failure, PLAYABLE};
use crate::json::{answer, object, Json};

pub static COMMAND: Command = Command {
    name: "explain",
    takes: "[CODE] [--json]",
    does: "what a refusal or a warning means: the rule, an example, the cure",
    places: (0, 1),
    options: &[JSON],
};

/// What is said of a code. Lines of the rule and the cure are broken as they are shown.
pub struct Explanation {
    pub code: &'static str,
    /// In a line.
    pub title: &'static str,
    pub rule: &'static str,
    /// A narration, or a book's words with comments.
    pub example: &'static str,
    pub cure: &'static str,
}

pub fn run(call: &Call) -> Result<Output, Failure> {
    let Some(asked) = call.places.first() else {
        let text = match call.has("--json") {
            true => format!("{}\n", all_json()),
            false => all(),
        };
        return Ok(Output::answer(text, PLAYABLE));
    };
    let asked = asked.to_string_lossy();
    let Some(found) = of(&asked) else {
        let codes: Vec<&str> = ALL.iter().map(|own| own.code).collect();
        return Err(Failure::command_line(format!(
            "there is no `{asked}`; there are {}",
            codes.join(", ")
        )));
    };
    let text = match call.has("--json") {
        true => format!("{}\n", json(found)),
        false => text(found),
    };
    Ok(Output::answer(text, PLAYABLE))
}

/// By its code; case does not matter, and a number alone is a refusal's.
pub fn of(asked: &str) -> Option<&'static Explanation> {
    let code = asked.trim().to_uppercase();
    let refusal = format!("R{code}");
    ALL.iter().find(|own| own.code == code || own.code == refusal)
}

fn all() -> String {
    let mut text = String::new();
    for own in &ALL {
        text.push_str(&format!("{:4} {}\n", own.code, own.title));
    }
    text.push_str("\n`nghi explain CODE` says more of each.\n");
    text
}

fn text(own: &Explanation) -> String {
    let indented = |text: &str, by: &str| -> String {
        let line = |line: &str| match line.is_empty() {
            true => String::from("\n"),
            false => format!("{by}{line}\n"),
        };
        text.trim().lines().map(line).collect()
    };
    format!(
        "{}: {}\n\n{}\nExample\n\n{}\nCure\n\n{}",
        own.code,
        own.title,
        indented(own.rule, ""),
        indented(own.example, "    "),
        indented(own.cure, "")
    )
}

fn fields(own: &Explanation) -> [(&'static str, Json); 5] {
    [
        ("code", own.code.into()),
        ("title", own.title.into()),
        ("rule", own.rule.trim().into()),
        ("example", format!("{}\n", own.example.trim()).into()),
        ("cure", own.cure.trim().into()),
    ]
}

fn json(own: &Explanation) -> Json {
    answer("explain", fields(own))
}

fn all_json() -> Json {
    let codes: Vec<Json> = ALL.iter().map(|own| object(fields(own))).collect();
    answer("explain", [("codes", codes.into())])
}

/// In the order of their numbers, the warnings last.
pub static ALL: [Explanation; 22] = [
    Explanation {
        code: "R1",
        title: "too short to be a book, or no whole words",
        rule: "
A book is a row of words of four bytes each, low byte first, and begins with a header of 8 words. What was handed in has
fewer, or a count of bytes that is no multiple of four.
",
        example: "
# an empty file, or one that was cut off
1 8 1 12 0
",
        cure: "
Write the book again from its narration: `nghi build FILE -o X.book`. If the file came over a wire, fetch it again.
",
    },
    Explanation {
        code: "R2",
        title: "a count of the header is out of bounds",
        rule: "
The header counts rows (1 to 1,024), parties (1 to 16), steps (0 to 64) and the words of the pool (0 to 8,192), in its
words 0, 2, 4 and 6. The smallest of these words that is out of bounds is named.
",
        example: "
# word 2: no party
1 8 0 12 0 12 0 12   0 0 0 0
",
        cure: "
A book has at least one row and one party. One that is too large has to be told in parts. A narration never gives this
refusal: its limits are told as mistakes of the text.
",
    },
    Explanation {
        code: "R3",
        title: "an offset, or the book's length, is not what the counts come to",
        rule: "
The four sections stand one behind the other without gaps, so that the counts say where each begins (words 1, 3, 5 and 7)
and where the last one ends. The smallest of these words that differs is named, or 8 if only the length is wrong.
",
        example: "
# one row, one party; word 3 should be 12
1 8 1 13 0 16 0 16   0 0 0 0   0 0 0 1
",
        cure: "
Write the book again from its narration: `nghi build FILE -o X.book`. A book from before parties had four words each (place
5) is too old.
",
    },
    Explanation {
        code: "R4",
        title: "a row breaks its rule",
        rule: "
A row is an atom (kind 0, no parts), an operation (1, 0 to 8 arguments), a cipher (2, its key and 0 to 8 contents), a
public half (3) or a private half (4, one part each). Its parts are rows before it; only operations have a tag, 0 to
65,535. The smallest row that is otherwise is named, its list in the pool included.
",
        example: "
# row 1 is the public half of row 1, and not of a row before it
2 8 1 16 0 20 1 20   0 0 0 0  3 0 0 1   0 1 0 1   1
",
        cure: "
Write the book again from its narration: no narration gives this refusal.
",
    },
    Explanation {
        code: "R5",
        title: "a row is larger than 1,024",
        rule: "
A row's size is 2 for an atom, 3 and its parts' for an operation, 2 and its parts' for a cipher, 1 and its part's for a
half. No row may be larger than 1,024.
",
        example: "
# an operation of eight atoms has the size 19, one of eight of these 155, and one of eight of those, row 3, 1,243
4 8 1 24 0 28 24 28   0 0 0 0  1 0 0 8  1 0 8 8  1 0 16 8   0 24 0 1
0 0 0 0 0 0 0 0  1 1 1 1 1 1 1 1  2 2 2 2 2 2 2 2
",
        cure: "
Make the term smaller, for instance by sending its parts in two steps. In a narration this is a mistake of the text, told
where the term stands.
",
    },
    Explanation {
        code: "R6",
        title: "a row repeats an earlier one",
        rule: "
Equal terms have one row: no two rows that aren't atoms are alike in kind, tag and parts. The later of the two is named.
",
        example: "
# rows 1 and 2 are both the public half of row 0
3 8 1 20 0 24 2 24   0 0 0 0  3 0 0 1  3 0 1 1   0 2 0 1   0 0
",
        cure: "
Use the earlier row wherever the later one is used. No narration gives this refusal.
",
    },
    Explanation {
        code: "R7",
        title: "a party breaks its rule",
        rule: "
A party's name is the row of an atom and no earlier party's name; the rows that it knows, 0 to 256, are in increasing
order, each once; its mark is 1 if it may make atoms and 0 if it may not.
",
        example: "
# two parties of one name
1 8 2 12 0 20 0 20   0 0 0 0   0 0 0 1  0 0 0 1
",
        cure: "
Name each party by an atom of its own, and sort what it knows. In a narration a name that is declared twice is a mistake of
the text.
",
    },
    Explanation {
        code: "R8",
        title: "a step breaks its rule",
        rule: "
A step has a sender and a receiver, two different parties of the book, and 0 to 8 messages.
",
        example: "
# party 0 sends to itself
1 8 1 12 1 16 0 20   0 0 0 0   0 0 0 1   0 0 0 0
",
        cure: "
Let the message go to another party, or leave the step out: what a party tells itself it knows. In a narration this is a
mistake of the text.
",
    },
    Explanation {
        code: "R9",
        title: "the lists don't add up to the pool",
        rule: "
The pool holds the lists of all rows, then of all parties, then of all steps, one after another, and nothing else. Their
counts have to add up to its length.
",
        example: "
# one word in the pool, and no list that has it
1 8 1 12 0 16 1 16   0 0 0 0   0 0 0 1   0
",
        cure: "
Write the book again from its narration: `nghi build FILE -o X.book`.
",
    },
    Explanation {
        code: "R10",
        title: "the sender would have to make an atom that is taken",
        rule: "
A sender builds its messages from what it holds: what it knows from the start, what it made, and what arrived. An atom that
it lacks it makes, if it is nobody's yet. An atom is taken if it is a party's name, or stands in what some party knows, or
in a message of an earlier step. Nobody can make a taken atom, and so the step can't be played.

Three things surprise: an atom is taken for all parties, not only for those who saw it; a cipher that was stored, because its
key was not there yet, is not opened later; and of a cipher that was opened only the contents are kept, so that it can't be
sent on unless it can be built again.
",
        example: "
# S is to send N, which A made and S has never seen
party A knows A, B, S
party B knows A, B, S
party S knows A, B, S

A -> B: N
S -> B: N
",
        cure: "
Let the sender know the atom from the start, or let it arrive in an earlier message that the sender can open; put the steps
in an order in which keys come before what they open; or mend a slip in the name. `nghi check` tries such changes and shows
those with which the narration can be played.
",
    },
    Explanation {
        code: "R11",
        title: "a schedule has too many moves, or one that names no party",
        rule: "
A rehearsal plays the programs by a schedule, a row of party numbers. It has at most 4,096 moves, and each names a party of
the book.
",
        example: "
# with parties Tag and Reader: `nghi play FILE --moves Tag,Raeder`
party Tag knows K
party Reader knows K

Reader -> Tag: N
Tag -> Reader: {N}K
",
        cure: "
Name the parties as the narration does. No book needs 4,096 moves to be played to its end in order.
",
    },
    Explanation {
        code: "R12",
        title: "there is too little room for the output",
        rule: "
The proved functions write into room that is lent to them, and say how many words they need where it is too small.
",
        example: "
# a listing of a small book has some tens of words, and this one more than three
party A knows A, B, K
party B knows A, B, K

B -> A: N
A -> B: {N, B}K
",
        cure: "
Lend as many words as the place says. The commands of `nghi` do so by themselves.
",
    },
    Explanation {
        code: "R13",
        title: "the sender would have to make an atom, and makes nothing",
        rule: "
A party that `makes nothing` has no random source, as a cheap tag has none. It sends what it holds or can build from that. A
step for which it would have to make an atom, even one that is nobody's yet, is refused. Where the atom is taken, it is R10.
",
        example: "
# the tag is to send a nonce of its own
party Tag makes nothing knows K
party Reader knows K

Tag -> Reader: N, {N}K
",
        cure: "
Let another party make the atom and send it before; or leave out `makes nothing`, if the party has a random source after
all.
",
    },
    Explanation {
        code: "R20",
        title: "a summary has another length than its own words say",
        rule: "
A summary has three words, the numbers of parties, rows and steps, and then a word for each party and row. What was asked
about has not as many.
",
        example: "
# one party, two rows, no step, and one word missing
1 2 0   0
",
        cure: "
Keep the summary as it was written, all its words in order. `nghi knows` makes its own.
",
    },
    Explanation {
        code: "R21",
        title: "a question about a summary is out of range",
        rule: "
Whether a party held a row after a step was asked with a party, a row or a step that there is not. The first of these
numbers that is out of range is named; where there are no steps, every question is.
",
        example: "
# parties, rows and steps count from 0: here there is step 0, and no step 1
party A
party B

A -> B: N
",
        cure: "
Count parties, rows and steps from 0. `nghi knows` takes their names and lines.
",
    },
    Explanation {
        code: "R22",
        title: "the listing to be judged is of a party that there is not",
        rule: "
A listing of another tool is judged for one party of the book, by its number. The book has no party of that number.
",
        example: "
# two parties: 0 and 1
party A
party B

A -> B: N
",
        cure: "
Count the parties from 0 in the order of the book. `nghi judge` takes their names.
",
    },
    Explanation {
        code: "R24",
        title: "a derivation has too many lines, or a line too many effects",
        rule: "
A derivation of authenticity types has at most 1,024 lines, and each gives at most 64 effects.
",
        example: "
# the words of a derivation that says it has 1,025 lines
1025
",
        cure: "
Split the process: a part of it with its own derivation is smaller.
",
    },
    Explanation {
        code: "W1",
        title: "something is stored, and never compared, opened or sent on",
        rule: "
What arrives is opened if the party has the key, compared if the party can build it, and else stored as it comes. This was
stored, and the party never used it: whatever had arrived in its place, the party would have gone on just the same. That is
right for a session key or a payload, which are for what follows. It is wrong where the party was meant to check it: a
signature that is never opened convinces nobody.
",
        example: "
# B lacks KA+, and so it can't tell who signed
party A knows A, B, KA+, KA-
party B knows A, B

A -> B: A, {A, N}KA-
",
        cure: "
Let the party know the key (`party B knows A, B, KA+`), or let it arrive before. If it is meant so, say so in the file, in a
line of its own: `# allow W1: N is for what follows`.
",
    },
    Explanation {
        code: "W2",
        title: "something is stored unchecked, though the party could check it by the end",
        rule: "
As W1: this was stored and never used. But what the party holds at the end is enough to open it, or to build it and compare.
It only came too early: what is stored is not looked at again.
",
        example: "
# B gets h(M) before M, and never compares the two
party A knows A, B
party B knows A, B

A -> B: h(M)
A -> B: M
B -> A: {M}M
",
        cure: "
Put the steps in another order, or send the message once more at the end, so that it arrives when the party can check it. If
the protocol's program checks later what it kept, this notation can't say so: `# allow W2: B compares it at the end`.
",
    },
    Explanation {
        code: "W3",
        title: "a private half of a party's name, which everyone who knows the name can build",
        rule: "
The halves of an atom can be built by everyone who holds the atom. A party's name is an atom that others hold: so A- is no
secret of A's, and whoever holds the name A can sign with it.
",
        example: "
# B holds the name A, so B can build A- and sign as A
party A knows A, B
party B knows A, B

A -> B: {B, N}A-
",
        cure: "
Give the party a key of its own, and let it alone know the private half: `party A knows A, B, KA+, KA-` and
`party B knows A, B, KA+`.
",
    },
    Explanation {
        code: "W4",
        title: "two names look alike",
        rule: "
A slip in a name is no mistake to the translator: another name is another atom, and an atom that is nobody's is made. So
`KAB` beside `K_AB` is a new key, which nobody else has; and `hash` beside `Hash` is another operation. Names are told that
differ by case, by `_` or a prime inside, by letters and digits that look alike (l, I and 1; O and 0; letters of other
scripts), or by one letter, if one of them is written only once. Names of a family, as N1 and N2 or KAB and KAS or K and K',
are not told.
",
        example: "
# KAB is a slip, so A makes a new key that B lacks
party A knows A, B, K_AB
party B knows A, B, K_AB

A -> B: A, {N, A}KAB
",
        cure: "
Write one name. If they are two things, give them names that nobody mixes up, or say so: `# allow W4: p and P are two`.
",
    },
    Explanation {
        code: "W5",
        title: "one operation has several numbers of arguments",
        rule: "
f(N) and f(N, M) are two operations that share a name; nothing relates them. Often an argument was forgotten.
",
        example: "
# is the second h missing its N?
party A knows A, B, K
party B knows A, B, K

A -> B: N, h(N, K)
B -> A: h(K)
",
        cure: "
Write all arguments, or name the operations h1 and h2. If a hash of any number of arguments is meant: `# allow W5: h hashes
its arguments, however many`.
",
    },
];
