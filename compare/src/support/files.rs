//! The two files of a generator: the cases, and what is expected of them.

use std::path::Path;
use std::process::ExitCode;

use super::arguments::{self, Arguments};
use super::{hex, SEED};

/// Both as they grow. None is written before all cases are there, so that one that
/// disagrees leaves the old files alone.
#[derive(Default)]
pub struct Files {
    count: usize,
    input: Vec<u8>,
    expected: String,
}

impl Files {
    /// The number of cases so far.
    pub fn count(&self) -> usize {
        self.count
    }

    /// Adds a case whose bytes tell where they end.
    pub fn add_encoded(&mut self, case: &[u8], expected: &str) {
        self.count += 1;
        self.input.extend(case);
        self.expected.push_str(expected);
    }

    /// Adds a case behind its length, without which its end is not known.
    pub fn add(&mut self, case: &[u8], expected: &str) {
        let length = u16::try_from(case.len()).expect("a length of two bytes");
        self.input.extend(length.to_le_bytes());
        self.add_encoded(case, expected);
    }

    /// Adds a table whose line is known, if this implementation gives the same.
    pub fn add_known_line(
        &mut self,
        name: &str,
        table: &[u8],
        line: &str,
        ours: &str,
    ) -> Result<(), String> {
        if ours != line {
            let table = hex::encode(table);
            return Err(format!(
                "{name} disagrees\ntable {table}\nexpected: {line}ours:     {ours}"
            ));
        }
        self.add(table, line);
        Ok(())
    }

    /// Says how much of what there is, and writes it.
    pub fn write<const N: usize>(
        &self,
        what: &str,
        arguments: &Arguments<N>,
    ) -> Result<(), String> {
        println!(
            "{what} {}, input bytes {}, expected bytes {}",
            self.count,
            self.input.len(),
            self.expected.len()
        );
        arguments.write(&self.input, self.expected.as_bytes())
    }
}

/// Runs a generator with vector files of one kind, whose cases come first.
pub fn generate(
    program: &str,
    what: &str,
    option: &str,
    add_vectors: impl Fn(&mut Files, &Path) -> Result<(), String>,
    add_others: impl FnOnce(&mut Files) -> Result<(), String>,
) -> ExitCode {
    let write_files = || {
        let arguments = arguments::read([option])?;
        let [vectors] = &arguments.options;
        println!("seed {SEED:#x}");
        let mut files = Files::default();
        for file in vectors {
            add_vectors(&mut files, file)?;
        }
        add_others(&mut files)?;
        files.write(what, &arguments)
    };
    exit_code(program, write_files())
}

/// An error is told under the program's name, as several programs may run in one go.
pub fn exit_code(program: &str, result: Result<(), String>) -> ExitCode {
    match result {
        Ok(()) => ExitCode::SUCCESS,
        Err(message) => {
            eprintln!("{program}: {message}");
            ExitCode::FAILURE
        }
    }
}
