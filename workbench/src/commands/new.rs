//! `nghi new`: a small narration to begin with.

use crate::arguments::{Call, Command, JSON};
use crate::commands::completions::quoted;
use crate::commands::Output;
use crate::failure::{Failure, PLAYABLE};
use crate::input::shown;
use crate::json::answer;
use crate::store;
use std::path::PathBuf;

pub static COMMAND: Command = Command {
    name: "new",
    takes: "NAME [--json]",
    does: "writes NAME.narration, a small one to begin with; never over a file that is there",
    places: (1, 1),
    options: &[JSON],
};

const END: &str = ".narration";

/// A challenge and its answer, which can be played and give no warning.
const TEXT: &str = "\
# A reader finds out whether a tag is the one that it says it is: both have a key, and nobody else has.
# What stands behind `#` is a remark. The parties come first, each with what it knows at the start.

# A cheap tag has no random source, so it makes nothing of its own.
party Tag makes nothing knows Tag, K
party Reader knows Tag, K

# Then the steps: who sends whom what. N is in nobody's knowledge, so the reader makes it; being new, it can't be answered
# with what was overheard before.
Reader -> Tag: N

# {N, Tag}K is a cipher of N and Tag under the key K. The reader opens it and compares both with what it has.
Tag -> Reader: {N, Tag}K
";

pub fn run(call: &Call) -> Result<Output, Failure> {
    let mut path = call.places[0].clone();
    if !path.to_string_lossy().ends_with(END) {
        path.push(END);
    }
    let path = PathBuf::from(path);
    let name = path.file_name().map(|name| name.to_string_lossy());
    if name.is_none_or(|name| name == END || name.starts_with('-')) {
        let message = "a name is asked for, and none that begins with `-`\nuse: nghi new NAME";
        return Err(Failure::command_line(message));
    }
    store::create(&path, TEXT.as_bytes())?;
    let name = shown(&path);
    let text = match call.has("--json") {
        true => format!("{}\n", answer("new", [("file", name.into())])),
        false => format!(
            "wrote {name}; `nghi programs {}` shows what each party does\n",
            quoted(&name)
        ),
    };
    Ok(Output::answer(text, PLAYABLE))
}
