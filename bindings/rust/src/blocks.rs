use crate::{raw, Refusal, MAX_NODES};

/// The figures of a table that has been fetched.
#[derive(Clone, Copy, Debug, PartialEq, Eq, Hash)]
pub struct Fetched {
    /// The length of the table, in bytes.
    pub length: usize,
    /// Its edition, the highest that is whole.
    pub edition: u16,
    /// The number of its parts.
    pub parts: u8,
}

/// Writes the table of a program's highest whole edition in a file to the front of the lent table,
/// which needs 2 * [`MAX_NODES`] bytes, for a short table too; the old bytes past it stay.
///
/// Checks 3, 17, 18 and 1, in this order. An empty file is refused by 18. 1 is of the highest whole
/// edition: no lower one stands in for it. The bytes are not checked as a table beyond that, which
/// is left to the other calls.
///
/// A file is at most [`MAX_BLOCKS`](crate::MAX_BLOCKS) blocks of [`BLOCK`](crate::BLOCK) bytes:
///
/// | Bytes | What they say |
/// |---|---|
/// | 0, 1 | number of the program, lowest byte first |
/// | 2, 3 | edition, lowest byte first |
/// | 4 | part, from 0 |
/// | 5 | number of parts |
/// | 6, 7 | used length, lowest byte first, 1 to 502 |
/// | 8 to 509 | content: the used bytes, and zeros after them |
/// | 510 | first check byte: the sum of bytes 0 to 509, modulo 255 |
/// | 511 | second check byte: the sum of all running values of that sum, modulo 255 |
///
/// - A running value is the sum up to one of the bytes 0 to 509, that byte included.
/// - A block with a bad check byte, used length or filler is passed over, and any other is good. Of
///   two good blocks for one program, edition and part the later in the file counts.
/// - An edition is whole if part 0 names m parts, m at least 1, the parts 0 to m - 1 are all there
///   and all name m, and all but the last use 502 bytes. A part from m on makes no difference.
/// - The highest whole edition of a program supersedes its others, and its parts, joined, are the
///   table.
/// - A part is only as trustworthy as its check bytes. A change of one byte between 0 and 255 is
///   not seen by them in the numbers (bytes 0 to 5) and in the used content; after any other change
///   of one byte a good block is passed over.
///
/// ```
/// use bavzhrono::{fetch, Fetched, BLOCK, MAX_NODES};
///
/// // Program 1, edition 2, part 0 of 1: 8 bytes.
/// let mut file = [0; BLOCK];
/// file[..8].copy_from_slice(&[1, 0, 2, 0, 0, 1, 8, 0]);
/// file[8..16].copy_from_slice(&[2, 0, 3, 7, 9, 0, 8, 0]);
/// file[510..].copy_from_slice(&[41, 110]);
///
/// let mut table = [0; 2 * MAX_NODES];
/// let fetched = fetch(&file, 1, &mut table)?;
/// assert_eq!(fetched, Fetched { length: 8, edition: 2, parts: 1 });
/// assert_eq!(table[..8], [2, 0, 3, 7, 9, 0, 8, 0]);
///
/// let refusal = fetch(&file, 3, &mut table).unwrap_err();
/// assert_eq!(
///     refusal.to_string(),
///     "refused 18: the program has no whole edition in the file"
/// );
/// # Ok::<(), bavzhrono::Refusal>(())
/// ```
pub fn fetch(file: &[u8], program: u16, table: &mut [u8]) -> Result<Fetched, Refusal> {
    let [length, edition, parts] =
        Refusal::or_figures(|answer| raw::fetch(file, program, table, answer))?;
    Ok(Fetched {
        length,
        edition: edition.try_into().expect("an edition has two bytes"),
        parts: parts.try_into().expect("a number of parts has one byte"),
    })
}

/// The table that [`fetch`] writes.
///
/// ```
/// use bavzhrono::{listing, table_in, BLOCK};
///
/// let mut file = [0; BLOCK];
/// file[..16].copy_from_slice(&[1, 0, 2, 0, 0, 1, 8, 0, 2, 0, 3, 7, 9, 0, 8, 0]);
/// file[510..].copy_from_slice(&[41, 110]);
/// assert_eq!(
///     listing(&table_in(&file, 1)?),
///     "ok 4 1 8\n0 2 0 2 3 1 1\n1 3 7 1 1 0 0\n2 9 0 2 3 1 1\n3 8 0 2 2 0 0\n"
/// );
///
/// // A block that is changed is passed over.
/// file[11] = 8;
/// assert_eq!(table_in(&file, 1).unwrap_err().number, 18);
/// # Ok::<(), bavzhrono::Refusal>(())
/// ```
pub fn table_in(file: &[u8], program: u16) -> Result<Vec<u8>, Refusal> {
    let mut table = vec![0; 2 * MAX_NODES];
    let fetched = fetch(file, program, &mut table)?;
    table.truncate(fetched.length);
    Ok(table)
}

/// The used content of a part, which is a part of the lent file and no copy.
///
/// It is empty if no good block is for these numbers, or if the file is one that [`fetch`] refuses
/// with 17. Whether the edition is whole makes no difference.
///
/// ```
/// use bavzhrono::{part, BLOCK};
///
/// let mut file = [0; BLOCK];
/// file[..16].copy_from_slice(&[1, 0, 2, 0, 0, 1, 8, 0, 2, 0, 3, 7, 9, 0, 8, 0]);
/// file[510..].copy_from_slice(&[41, 110]);
/// assert_eq!(part(&file, 1, 2, 0), &file[8..16]);
/// assert!(part(&file, 1, 2, 1).is_empty());
/// ```
pub fn part(file: &[u8], program: u16, edition: u16, part: u8) -> &[u8] {
    let [from, length, _] =
        Refusal::or_figures(|answer| raw::part(file, program, edition, part, answer))
            .expect("an answer of three entries suffices");
    &file[from..from + length]
}
