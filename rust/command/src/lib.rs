//! The command `goadlotus`: carries the verified library's answers to people. It takes domains and runs in words and in
//! bytes, and every verdict, name, witness, state, weight and number that it shows is the library's.

pub mod answers;
pub mod arguments;
pub mod boxes;
pub mod domain;
pub mod evidence;
pub mod explain;
pub mod files;
pub mod folder;
pub mod help;
pub mod library;
pub mod marks;
pub mod notation;
pub mod numbers;
pub mod output;
pub mod prose;
pub mod reasons;
pub mod records;
pub mod run;
pub mod scenario;
pub mod sentences;
pub mod stops;
pub mod story;
pub mod table;
pub mod timeline;
pub mod trace;
pub mod tracked;
pub mod tried;
pub mod words;
