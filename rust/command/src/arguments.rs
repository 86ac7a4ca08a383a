//! What stands behind a word on the command line.

use crate::table::Form;
use std::ffi::{OsStr, OsString};

#[derive(Clone, Debug, Default)]
pub struct Arguments {
    pub files: Vec<OsString>,
    pub form: Form,
    /// The file to write to.
    pub output: Option<OsString>,
    pub rows: bool,
    pub all: bool,
    /// Every file is a box of files.
    pub boxes: bool,
    /// An instance is followed, also one of no objects.
    pub track: bool,
    pub help: bool,
}

/// Which options a word takes, besides --help.
#[derive(Clone, Copy, Debug, Default)]
pub struct Options {
    pub form: bool,
    pub output: bool,
    pub rows: bool,
    pub all: bool,
    pub boxes: bool,
    pub track: bool,
}

impl Arguments {
    /// Reads the arguments of a word, or says what is wrong with them. Behind `--` everything is a file.
    pub fn read(word: &str, options: Options, given: &[OsString]) -> Result<Arguments, String> {
        let mut arguments = Arguments::default();
        let mut given = given.iter();
        while let Some(argument) = given.next() {
            match argument.to_str() {
                Some("--") => {
                    arguments.files.extend(given.cloned());
                    break;
                }
                Some("--help" | "-h") => arguments.help = true,
                Some("--tsv") if options.form => arguments.form = Form::Tsv,
                Some("--json") if options.form => arguments.form = Form::Json,
                Some("--rows") if options.rows => arguments.rows = true,
                Some("--all") if options.all => arguments.all = true,
                Some("--box") if options.boxes => arguments.boxes = true,
                Some("--track") if options.track => arguments.track = true,
                Some("-o" | "--output") if options.output => {
                    let file = given.next().ok_or("-o needs the name of a file behind it")?;
                    arguments.output = Some(file.clone());
                }
                Some(option) if option.starts_with('-') && option != "-" => {
                    return Err(format!("{word} has no option {option}"));
                }
                _ => arguments.files.push(argument.clone()),
            }
        }
        if arguments.files.iter().filter(|file| *file == OsStr::new("-")).count() > 1 {
            return Err("standard input can be read only once".to_string());
        }
        Ok(arguments)
    }
}
