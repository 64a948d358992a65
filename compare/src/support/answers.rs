//! Lists of answers.

/// Bytes that say present.
const PRESENT: [u8; 3] = [1, 2, 255];

/// Goes through every list of answers that an instant can take. The visitor says whether
/// the list was too short: then both ways to go on are tried. Its first error ends it.
pub fn every_list<E>(mut is_too_short: impl FnMut(&[u8]) -> Result<bool, E>) -> Result<(), E> {
    let mut lists = vec![Vec::new()];
    while let Some(list) = lists.pop() {
        if is_too_short(&list)? {
            let present = PRESENT[list.len() % PRESENT.len()];
            lists.push([&list[..], &[0]].concat());
            lists.push([&list[..], &[present]].concat());
        }
    }
    Ok(())
}
