use crate::{raw, Refusal, MAX_NODES};

/// The figures of a text that has been read.
#[derive(Clone, Copy, Debug, PartialEq, Eq, Hash)]
pub struct Reading {
    /// The number of nodes n: the table has 2n bytes.
    pub nodes: usize,
    /// The number of signals, which are numbered from 0.
    pub signals: usize,
}

/// Writes the table of a program that is written as text to the front of the lent table, which
/// needs 2 * [`MAX_NODES`] bytes, for a short text too; the old bytes past it stay.
///
/// Checks 3, 14 or 20, 15, 16, 1, 8 and 9, in this order. The last three are of the text's table,
/// which is then not written; 8 and 9 name a node of it. A table that is written can still be
/// refused by 11, which is left to the other calls, but by no other check of a table. Where a
/// refused text is at fault is found by [`read_place`].
///
/// The text has at most [`MAX_SOURCE`](crate::MAX_SOURCE) bytes and is in kernel Esterel and the
/// everyday dialect:
///
/// ```text
/// program   = sequence
/// sequence  = statement { ";" statement }                         groups to the left
/// bracket   = "[" sequence "||" sequence { "||" sequence } "]"    groups to the left
/// statement = nothing | pause | emit NAME | exit NAME | bracket
///           | signal NAME in sequence end | trap NAME in sequence end | loop sequence end
///           | present NAME then sequence [ else sequence ] end
///           | present NAME else sequence end
///           | suspend sequence when NAME
///           | halt | sustain NAME | await NAME
///           | abort sequence when NAME end | weak abort sequence when NAME end
/// ```
///
/// The last two lines are the dialect, whose forms stand for statements of the kernel:
///
/// ```text
/// halt                     loop pause end
/// sustain S                loop emit S; pause end
/// await S                  trap T in WAIT end
/// abort p when S end       trap T in [suspend p when S; exit T || WAIT] end
/// weak abort p when S end  trap T in [p; exit T || WAIT] end
/// ```
///
/// WAIT is `loop pause; present S then exit T end end`, and T stands for a trap without a name: no
/// exit in p means it, and one that leaves the form counts it as a level.
///
/// - A present's missing branch is nothing. A suspend has no end of its own.
/// - A word is an unbroken run of ASCII letters, digits and underscores. A NAME is a word of at
///   most 32 characters whose first is a letter, and none of the language's words: nothing, pause,
///   signal, in, end, emit, present, then, else, suspend, when, loop, trap, exit, halt, sustain,
///   await, abort, weak, immediate, every, case. Case matters.
/// - The last three belong to the full language, as does a count, which is a word of digits alone:
///   no text of the grammar has them. 20 is in the place of 14 if the first word, sign or other byte
///   with which the text can't go on to a text of the grammar is one of these.
/// - Blanks, tabs and line feeds separate, and may stand around any word or sign. Any other byte is
///   outside the grammar, a carriage return too, and there are no comments.
/// - Signals are numbered from 0 in the order in which their names first appear in the text, whatever
///   the statement. A name that is declared again keeps its number.
/// - An exit means the nearest trap of its name around it. A trap and a signal may have the same
///   name.
/// - Before the dialect was read, the eight words from halt on could be names. A text in which one
///   of them is a name is refused now.
///
/// ```
/// use bavzhrono::{read, Reading, MAX_NODES};
///
/// let mut table = [0; 2 * MAX_NODES];
/// let reading = read(b"suspend emit A when S", &mut table)?;
/// assert_eq!(reading, Reading { nodes: 2, signals: 2 });
/// assert_eq!(table[..4], [3, 0, 7, 1]);
///
/// let refusal = read(b"trap T in pause end; exit T", &mut table).unwrap_err();
/// assert_eq!(
///     refusal.to_string(),
///     "refused 15: an exit of the text has no trap of its name around it"
/// );
/// # Ok::<(), bavzhrono::Refusal>(())
/// ```
pub fn read(text: &[u8], table: &mut [u8]) -> Result<Reading, Refusal> {
    let [nodes, signals, _] = Refusal::or_figures(|answer| raw::read(text, table, answer))?;
    Ok(Reading { nodes, signals })
}

/// Why a text is refused, and where it is at fault.
#[derive(Clone, Copy, Debug, PartialEq, Eq, Hash)]
pub struct Placed {
    /// What [`read`] refuses the text with.
    pub refusal: Refusal,
    /// The byte of the text, from 0, at most its length.
    pub place: usize,
}

/// Why [`read`], lent a table that suffices, refuses the text, and where the text is at fault;
/// nothing if it is read.
///
/// | Number | Place |
/// |---|---|
/// | 14, 20 | the first byte of the first word, sign or other byte with which the text can't go on to a text of the grammar; the text's length if it merely stops, blanks, tabs and line feeds at its end included; [`MAX_SOURCE`](crate::MAX_SOURCE) if the text has more bytes than that |
/// | 15 | the first byte of the name of the first exit without its trap |
/// | 16 | the first byte of the 257th signal name, where it first appears |
/// | 1, 8, 9 | 0, since the fault is one of the table |
///
/// ```
/// use bavzhrono::{read_place, Placed, Refusal};
///
/// let refusal = Refusal { number: 20, node: 0 };
/// assert_eq!(read_place(b"emit case"), Some(Placed { refusal, place: 5 }));
/// assert_eq!(read_place(b"emit Case"), None);
///
/// // The line and the column, from 1.
/// let text = b"loop\n  await 3 Seconds\nend";
/// let placed = read_place(text).expect("a refusal");
/// let before = &text[..placed.place];
/// let line = before.split(|&byte| byte == b'\n').count();
/// let column = 1 + before.iter().rev().take_while(|&&byte| byte != b'\n').count();
/// assert_eq!((line, column), (2, 9));
/// ```
pub fn read_place(text: &[u8]) -> Option<Placed> {
    let [number, node, place] = Refusal::or_figures(|answer| raw::read_place(text, answer))
        .expect("an answer of three entries suffices");
    let number = number.try_into().expect("a number is at most 255");
    let refusal = Refusal { number, node };
    (number != 0).then_some(Placed { refusal, place })
}

/// The table that [`read`] writes.
///
/// ```
/// use bavzhrono::{listing, table_of};
///
/// let table = table_of(b"loop pause; emit S end")?;
/// assert_eq!(table, [2, 0, 3, 0, 9, 0, 8, 0]);
/// assert_eq!(
///     listing(&table),
///     "ok 4 1 8\n0 2 0 2 3 1 1\n1 3 0 1 1 0 0\n2 9 0 2 3 1 1\n3 8 0 2 2 0 0\n"
/// );
/// // The text is sound, but the loop's body can end at once.
/// assert_eq!(listing(&table_of(b"loop nothing end")?), "refused 11 1\n");
/// # Ok::<(), bavzhrono::Refusal>(())
/// ```
pub fn table_of(text: &[u8]) -> Result<Vec<u8>, Refusal> {
    let mut table = vec![0; 2 * MAX_NODES];
    let reading = read(text, &mut table)?;
    table.truncate(2 * reading.nodes);
    Ok(table)
}
