//! `nghi draw`: a picture of the run.

use crate::arguments::{Call, Command, Takes, FORCE, JSON, ORDER};
use crate::commands::Output;
use crate::draw::scene::{too_many, Scene};
use crate::draw::{is_ours, picture, Form, MOST_EVENTS};
use crate::failure::{Failure, PLAYABLE, REFUSED};
use crate::input::{shown, Input};
use crate::playable;
use crate::proved::Answers;
use crate::report;
use crate::run::Order;
use crate::store::{self, Target};
use crate::subject::{open, Opened, Subject};
use std::ffi::{OsStr, OsString};
use std::path::Path;

pub static COMMAND: Command = Command {
    name: "draw",
    takes: "FILE -o X.svg|X.html|X.mmd [--order O] [--as svg|html|mmd] [--force] [--json]",
    does: "a picture of the run, of at most 400 events; what is refused is drawn up to its step",
    places: (1, 1),
    options: &[
        ("-o", Takes::One("the picture's file, or - for standard output")),
        ORDER,
        (
            "--as",
            Takes::One("svg, html or mmd, where the file's name does not say it"),
        ),
        FORCE,
        JSON,
    ],
};

/// What is asked for: a picture in a file or on standard output, or what the picture shows, as JSON.
struct Asked {
    picture: Option<(Form, Place)>,
    json: bool,
}

enum Place {
    File(OsString),
    Out,
}

pub fn run(call: &Call) -> Result<Output, Failure> {
    let asked = asked(call)?;
    let input = Input::read(&call.places[0])?;
    let unreadable = |report| Ok(playable::told(call, report));
    let subject = match open(&input)? {
        Opened::Mistaken { lines, mistakes } => return unreadable(report::mistaken(&input.name, lines, &mistakes)),
        Opened::Refused(refusal) => return unreadable(report::no_book(&input.name, &input.bytes, refusal)),
        Opened::Subject(subject) => *subject,
    };
    let order = Order::asked(call, &subject)?;
    let (scene, refused) = scene(subject, &order)?;
    let mut told = String::new();
    let mut answer = asked.json.then(|| format!("{}\n", scene.json()));
    match asked.picture {
        None => (),
        Some((form, Place::Out)) => answer = Some(picture(&scene, form)?),
        Some((form, Place::File(path))) => told = write(&input, &scene, form, &path, call.has("--force"))?,
    }
    // What is on standard output says itself why it stops.
    Ok(match (answer, refused) {
        (Some(answer), None) => Output::answer(answer, PLAYABLE),
        (Some(answer), Some(_)) => Output::answer(answer, REFUSED),
        (None, None) => Output::answer(told, PLAYABLE),
        (None, Some(why)) => Output::error(format!("{why}{told}"), REFUSED),
    })
}

/// Writes the picture of a scene into a file, and tells so.
pub fn write(input: &Input, scene: &Scene, form: Form, path: &OsStr, force: bool) -> Result<String, Failure> {
    let source = input.path.clone().or_else(store::standard_input);
    let target = Target::of(Path::new(path), source.as_deref(), is_ours, "picture of nghi's", force)?;
    store::write(&[(target, picture(scene, form)?.as_bytes())])?;
    Ok(told_of(path, scene))
}

/// The scene, and, where the subject is refused, what `nghi check` says of it.
pub fn scene(subject: Subject, order: &Order) -> Result<(Scene, Option<String>), Failure> {
    let name = subject.name.clone();
    let large = |events: usize| {
        Failure::command_line(format!(
            "{name}: its run has {events} events, and at most {MOST_EVENTS} are drawn; `nghi programs` lists them"
        ))
    };
    match Answers::of(&subject)? {
        Ok(answers) => match too_many(&answers) {
            Some(events) => Err(large(events)),
            None => Ok((Scene::of(&subject, &answers, order)?, None)),
        },
        Err(refusal) => {
            let why = report::unplayable(&subject, refusal)?.text(&[]);
            let scene = Scene::of_refused(subject, refusal, order)?.map_err(large)?;
            Ok((scene, Some(why)))
        }
    }
}

fn asked(call: &Call) -> Result<Asked, Failure> {
    let json = call.has("--json");
    let form = match call.text("--as")? {
        None => None,
        Some(name) => Some(Form::named(&name).ok_or_else(|| {
            Failure::command_line(format!(
                "`{name}` is no form of a picture; the forms are svg, html and mmd"
            ))
        })?),
    };
    let picture =
        match (call.value("-o"), form) {
            (Some(path), _) if path == "-" && json => {
                return Err(Failure::command_line(
                    "`-o -` and `--json` both write to standard output; leave one of them out",
                ))
            }
            (Some(path), Some(form)) if path == "-" => Some((form, Place::Out)),
            (None, Some(form)) if !json => Some((form, Place::Out)),
            (None, None) if json => None,
            (None, Some(_)) => None,
            (None, None) => return Err(Failure::command_line(
                "where to? `-o X.svg`, `-o X.html` and `-o X.mmd` write a file, `--as svg` writes to standard output",
            )),
            (Some(path), form) => match form.or_else(|| Form::of_path(path)) {
                Some(form) => Some((form, Place::File(path.to_os_string()))),
                None => return Err(Failure::command_line(no_form(path))),
            },
        };
    Ok(Asked { picture, json })
}

fn no_form(path: &OsStr) -> String {
    match path == "-" {
        true => String::from("`-o -` needs `--as svg`, `--as html` or `--as mmd`"),
        false => format!(
            "{}: its name says no form; end it with .svg, .html or .mmd, or say `--as svg`",
            shown(Path::new(path))
        ),
    }
}

fn told_of(path: &OsStr, scene: &Scene) -> String {
    let path = shown(Path::new(path));
    match &scene.stop {
        None => format!("{path}: {}\n", scene.size()),
        Some(stop) => format!("{path}: drawn up to {}: {}\n", stop.place, stop.reason),
    }
}
