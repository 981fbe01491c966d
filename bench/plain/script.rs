//! Scripts: lines that are commands, and the text behind each.

use crate::text::Lines;

/// The commands of a script, each with the text up to the next.
pub fn commands(script: &[u8]) -> impl Iterator<Item = (&str, &[u8])> {
    let mut lines = Lines { rest: script };
    cut_text(&mut lines);
    std::iter::from_fn(move || {
        let command = std::str::from_utf8(lines.next()?).unwrap_or("!");
        Some((command, cut_text(&mut lines)))
    })
}

/// What stands before the next command.
fn cut_text<'a>(lines: &mut Lines<'a>) -> &'a [u8] {
    let text = lines.rest;
    while lines.rest.first().is_some_and(|it| *it != b'!') {
        lines.next();
    }
    &text[..text.len() - lines.rest.len()]
}
