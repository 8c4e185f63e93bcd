//! The workbench: a narration's text, or a book, and what the proved functions of the package `nghiralum` answer about it,
//! told so that people can read it.
//!
//! Verdicts, programs, counts and knowledge come from the proved functions alone ([`proved`]). What is not proved, from text
//! to book and from words to text or picture, guards itself ([`guard`]).

pub mod arguments;
pub mod cells;
pub mod commands;
pub mod draw;
pub mod failure;
pub mod guard;
pub mod input;
pub mod json;
pub mod listing;
pub mod playable;
pub mod progress;
pub mod proved;
pub mod question;
pub mod report;
pub mod run;
pub mod slips;
pub mod store;
pub mod subject;
pub mod told;
pub mod warnings;
