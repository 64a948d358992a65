use crate::{raw, Refusal, MAX_TEXT};

/// Writes the listing of a table, or the line of its refusal, to the front of the text, and hands
/// back its length.
///
/// The listing has a line `ok n d n(1 + d)`, then a line for each node: number, kind, field, K, A,
/// S (hexadecimal), mark. A refused table has the one line `refused NUMBER NODE`. The call itself
/// is refused, with 3, only if the text does not fit; [`MAX_TEXT`] bytes suffice for any table.
///
/// ```
/// let mut text = [0; 100];
/// let length = bavzhrono::render(&[1, 0, 8, 0], &mut text)?;
/// assert_eq!(&text[..length], b"refused 11 1\n");
/// # Ok::<(), bavzhrono::Refusal>(())
/// ```
pub fn render(table: &[u8], text: &mut [u8]) -> Result<usize, Refusal> {
    let [length, ..] = Refusal::or_figures(|answer| raw::render(table, text, answer))?;
    Ok(length)
}

/// The text that [`render`] writes.
///
/// ```
/// let text = bavzhrono::listing(&[2, 0, 3, 7, 9, 0, 8, 0]);
/// assert_eq!(
///     text,
///     "ok 4 1 8\n0 2 0 2 3 1 1\n1 3 7 1 1 0 0\n2 9 0 2 3 1 1\n3 8 0 2 2 0 0\n"
/// );
/// ```
pub fn listing(table: &[u8]) -> String {
    let mut text = vec![0; MAX_TEXT];
    let length = render(table, &mut text).expect("MAX_TEXT bytes suffice");
    text.truncate(length);
    String::from_utf8(text).expect("a listing is ASCII")
}
