//! What a command line program does besides its work: options, help for wrong
//! usage, exit status.

use std::collections::HashMap;
use std::io::{self, BufWriter, Write};
use std::process::ExitCode;

pub enum Failure {
    Usage(String),
    Check(String),
    Output(io::Error),
}

impl From<io::Error> for Failure {
    fn from(error: io::Error) -> Self {
        Failure::Output(error)
    }
}

/// `--name value` pairs, each name known and given once.
pub struct Options(HashMap<String, u64>);

impl Options {
    pub fn parse(words: &[String], known: &[&str]) -> Result<Self, Failure> {
        let mut options = HashMap::new();
        let mut words = words.iter();
        while let Some(name) = words.next() {
            if !known.contains(&name.as_str()) {
                return Err(Failure::Usage(format!("unknown option {name}")));
            }
            let value = words
                .next()
                .ok_or_else(|| Failure::Usage(format!("{name} needs a number")))?;
            let number = value
                .parse()
                .map_err(|_| Failure::Usage(format!("{name}: {value} is not a number")))?;
            if options.insert(name.clone(), number).is_some() {
                return Err(Failure::Usage(format!("{name} given twice")));
            }
        }
        Ok(Options(options))
    }

    pub fn find(&self, name: &str) -> Option<u64> {
        self.0.get(name).copied()
    }

    pub fn get(&self, name: &str) -> Result<u64, Failure> {
        self.find(name)
            .ok_or_else(|| Failure::Usage(format!("{name} is missing")))
    }

    pub fn get_or(&self, name: &str, default: u64) -> u64 {
        self.find(name).unwrap_or(default)
    }
}

/// Runs a program on its words. Status 0: all well; 1: a check failed or the
/// output cannot be written; 2: wrong usage.
pub fn main(
    program: &str,
    run: impl FnOnce(&[String], &mut dyn Write) -> Result<(), Failure>,
) -> ExitCode {
    let words: Vec<String> = std::env::args().skip(1).collect();
    let mut out = BufWriter::new(io::stdout().lock());
    let result = run(&words, &mut out).and_then(|()| out.flush().map_err(Failure::Output));
    let _ = out.flush();
    match result {
        Ok(()) => ExitCode::SUCCESS,
        Err(Failure::Usage(why)) => {
            eprintln!("{program}: {why}; see {program} --help");
            ExitCode::from(2)
        }
        Err(Failure::Check(why)) => {
            eprintln!("{program}: {why}");
            ExitCode::from(1)
        }
        Err(Failure::Output(error)) if error.kind() == io::ErrorKind::BrokenPipe => {
            ExitCode::SUCCESS
        }
        Err(Failure::Output(error)) => {
            eprintln!("{program}: cannot write: {error}");
            ExitCode::from(1)
        }
    }
}
