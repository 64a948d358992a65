//! The listing of the table on standard input, as this implementation gives it: the other program beside `list`.
use std::io::{self, Read, Write};

fn main() -> io::Result<()> {
    let mut table = Vec::new();
    io::stdin().read_to_end(&mut table)?;
    io::stdout().write_all(compare::listing(&table).as_bytes())
}
