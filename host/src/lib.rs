//! Nghiralum's second implementation, written from the papers alone, on terms: reader, translator, rehearsal, summaries
//! and judge, random books, and what the gate asks for. It shares nothing with the proved code, so that each tests the
//! other; with the workbench it shares the narrations' text format, the package `narration`.

pub mod bench;
pub mod book;
pub mod bytes;
pub mod compare;
pub mod corpus;
pub mod edits;
pub mod files;
pub mod frames;
pub mod judge;
pub mod lean;
pub mod library;
pub mod machine;
pub mod mutants;
pub mod narration;
pub mod random;
pub mod rehearse;
pub mod requests;
pub mod routes;
pub mod shelf;
pub mod summary;
pub mod term;
pub mod translate;
pub mod types;
pub mod words;
