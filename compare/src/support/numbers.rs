//! Numbers on a command line.

/// The value of an option, in decimal or with 0x in hexadecimal.
pub fn read(option: &str, value: Option<String>) -> Result<u64, String> {
    let value = value.ok_or(format!("{option} needs a number"))?;
    let number = match value.strip_prefix("0x") {
        Some(digits) => u64::from_str_radix(digits, 16),
        None => value.parse(),
    };
    number.map_err(|_| format!("{option} needs a number, not {value}"))
}
