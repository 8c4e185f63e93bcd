//! A scene as a Mermaid sequence diagram: a message for each step, a note for each event.

use super::scene::Scene;
use crate::failure::Failure;
use std::fmt::Write;

/// What every diagram of ours begins with.
pub const FRONT: &str = "%% nghi draw\n";

/// The diagram, after it was seen that it has as many notes and messages as there are events and steps.
pub fn diagram(scene: &Scene) -> Result<String, Failure> {
    let text = written(scene);
    each_once(scene, &text)?;
    Ok(text)
}

fn each_once(scene: &Scene, text: &str) -> Result<(), Failure> {
    let notes = text.lines().filter(|line| line.starts_with("    Note over ")).count();
    let messages = text.lines().filter(|line| line.contains("->>")).count();
    let asked = scene.events() + usize::from(scene.stop.is_some());
    match (notes, messages) == (asked, scene.steps.len()) {
        true => Ok(()),
        false => Err(Failure::guard("the diagram has not each event and each step once")),
    }
}

fn written(scene: &Scene) -> String {
    let mut out = format!("{FRONT}sequenceDiagram\n");
    for (number, party) in scene.parties.iter().enumerate() {
        let _ = writeln!(out, "    participant p{number} as {}", safe(&party.name));
    }
    for (party, number) in &scene.moves {
        note(scene, *party, *number, &mut out);
        let sent = |step: &&super::scene::Step| (step.from, step.sent) == (*party, *number);
        if let Some(step) = scene.steps.iter().find(sent) {
            let text = format!("{}: {}", step.place, step.text);
            let _ = writeln!(out, "    p{}->>p{}: {}", step.from, step.to, safe(&text));
        }
    }
    for (party, own) in scene.parties.iter().enumerate() {
        note(scene, party, own.events.len() - 1, &mut out);
    }
    if let Some(stop) = &scene.stop {
        let text = format!("refused at {}: {}: {}", stop.place, stop.text, stop.reason);
        let over = match scene.parties.len() {
            0 | 1 => String::from("p0"),
            parties => format!("p0,p{}", parties - 1),
        };
        let _ = writeln!(out, "    Note over {over}: {}", safe(&text));
    }
    out
}

fn note(scene: &Scene, party: usize, number: usize, out: &mut String) {
    let told = &scene.parties[party].events[number].told;
    let text = format!("{} {}", told.kind, told.text);
    let _ = writeln!(out, "    Note over p{party}: {}", safe(&text));
}

/// Text as it can stand in a diagram: signs that mean something to Mermaid, and all beyond ASCII, are written by their
/// numbers; so is the first letter of the word `end`, which would end a part of the diagram.
fn safe(text: &str) -> String {
    let letters: Vec<char> = text.chars().collect();
    let mut out = String::new();
    for (at, sign) in letters.iter().enumerate() {
        let ends = is_end(&letters, at);
        match sign {
            'a'..='z' | 'A'..='Z' | '0'..='9' | ' ' | ',' | '.' | '=' | '(' | ')' | '{' | '}' | '+' | '_' if !ends => {
                out.push(*sign)
            }
            _ => {
                let _ = write!(out, "#{};", *sign as u32);
            }
        }
    }
    out
}

/// Whether the word `end` stands here by itself, in small letters or capitals.
fn is_end(letters: &[char], at: usize) -> bool {
    let of_a_word = |at: usize| {
        letters
            .get(at)
            .is_some_and(|sign| sign.is_alphanumeric() || *sign == '_')
    };
    let word = letters[at..].iter().take(3).collect::<String>();
    word.eq_ignore_ascii_case("end") && !of_a_word(at + 3) && !(at > 0 && of_a_word(at - 1))
}

#[cfg(test)]
mod tests {
    use super::*;
    use crate::draw::scene;

    /// One line that is left out, or stands twice, breaks the guard.
    #[test]
    fn an_altered_diagram_is_told() {
        let scene = scene::example();
        let text = written(&scene);
        let status = |text: &str| each_once(&scene, text).map_err(|failure| failure.status);
        assert_eq!(status(&text), Ok(()));
        for line in text
            .lines()
            .filter(|line| line.contains("Note over ") || line.contains("->>"))
        {
            let line = format!("{line}\n");
            assert_eq!(status(&text.replacen(&line, "", 1)), Err(70), "{line}");
            assert_eq!(status(&text.replacen(&line, &line.repeat(2), 1)), Err(70), "{line}");
        }
    }

    #[test]
    fn signs_are_safe() {
        assert_eq!(safe("line 8: {N, B}K+"), "line 8#58; {N, B}K+");
        assert_eq!(safe("a;b#c\nd%"), "a#59;b#35;c#10;d#37;");
        assert_eq!(safe("A -> B"), "A #45;#62; B");
        assert_eq!(safe("鍵'"), "#37749;#39;");
        assert_eq!(safe("end END send ends"), "#101;nd #69;ND send ends");
    }
}
