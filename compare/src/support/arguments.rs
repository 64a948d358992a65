//! The command line of the generators.

use std::fs;
use std::path::{Path, PathBuf};

pub struct Arguments<const N: usize> {
    /// The files of each option, in the order in which the options were named.
    pub options: [Vec<PathBuf>; N],
    pub input: PathBuf,
    pub expected: PathBuf,
}

/// Reads `[NAME FILE].. INPUT EXPECTED`, with the named options any number of times.
pub fn read<const N: usize>(names: [&str; N]) -> Result<Arguments<N>, String> {
    let mut options = names.map(|_| Vec::new());
    let mut files = Vec::new();
    let mut arguments = std::env::args().skip(1);
    while let Some(argument) = arguments.next() {
        if let Some(option) = names.iter().position(|&name| name == argument) {
            let file = arguments.next().ok_or(format!("{argument} needs a file"))?;
            options[option].push(PathBuf::from(file));
        } else if argument.starts_with("--") {
            return Err(format!("unknown option {argument}"));
        } else {
            files.push(PathBuf::from(argument));
        }
    }
    let [input, expected] = files.try_into().map_err(|_| usage(&names))?;
    Ok(Arguments {
        options,
        input,
        expected,
    })
}

fn usage(names: &[&str]) -> String {
    let options: String = names
        .iter()
        .map(|name| format!("[{name} FILE].. "))
        .collect();
    format!("usage: {options}INPUT EXPECTED")
}

impl<const N: usize> Arguments<N> {
    /// Writes both files.
    pub fn write(&self, input: &[u8], expected: &[u8]) -> Result<(), String> {
        write(&self.input, input)?;
        write(&self.expected, expected)
    }
}

fn write(file: &Path, content: &[u8]) -> Result<(), String> {
    fs::write(file, content).map_err(|error| format!("cannot write {}: {error}", file.display()))
}
