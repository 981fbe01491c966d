//! Content lines: read where they stand, and written folded.

/// The lines of a text without their ends.
///
/// In place of a line that has a control character other than a tab comes that character alone, which isn't read as a line.
pub struct Lines<'a> {
    pub rest: &'a [u8],
}

impl<'a> Iterator for Lines<'a> {
    type Item = &'a [u8];

    fn next(&mut self) -> Option<&'a [u8]> {
        let text = self.rest;
        let (mut at, mut control) = (0, None);
        loop {
            at += control_at(&text[at..]);
            let (line, rest) = text.split_at(at);
            self.rest = match rest {
                [] if line.is_empty() => return None,
                [] => rest,
                [b'\n', rest @ ..] | [b'\r', b'\n', rest @ ..] => rest,
                [it, ..] => {
                    control = control.or(Some(&text[at..=at]).filter(|_| *it != b'\t'));
                    at += 1;
                    continue;
                }
            };
            return Some(control.unwrap_or(line));
        }
    }
}

const WORD: usize = size_of::<u64>();
// 1 in each octet of a word.
const EACH: u64 = u64::MAX / 255;

/// Where the first control character of a text is, or its end. The search takes a word at a time.
fn control_at(text: &[u8]) -> usize {
    let (words, rest) = text.as_chunks::<WORD>();
    for (at, word) in words.iter().enumerate() {
        let found = controls(u64::from_le_bytes(*word));
        if found != 0 {
            return WORD * at + found.trailing_zeros() as usize / 8;
        }
    }
    text.len() - rest.len() + rest.iter().position(u8::is_ascii_control).unwrap_or(rest.len())
}

/// A bit in the first octet of a word that is a control character, and maybe bits in later ones; 0 where none is.
fn controls(word: u64) -> u64 {
    let delete = word ^ (EACH * 0x7f);
    let found = (word.wrapping_sub(EACH * 0x20) & !word) | (delete.wrapping_sub(EACH) & !delete);
    found & (EACH * 0x80)
}

/// A text without its folds, where it has some. One where a fold would take away what parts a CR from an LF is refused.
pub fn unfold(text: &[u8]) -> Option<Vec<u8>> {
    let mut whole = Vec::with_capacity(text.len());
    for piece in text.split_inclusive(|it| *it == b'\n') {
        match piece {
            [b' ' | b'\t', more @ ..] if !whole.is_empty() => {
                whole.pop_if(|it| *it == b'\n');
                whole.pop_if(|it| *it == b'\r');
                if whole.ends_with(b"\r") {
                    return None;
                }
                whole.extend_from_slice(more);
            }
            _ => whole.extend_from_slice(piece),
        }
    }
    (whole.len() < text.len()).then_some(whole)
}

/// A content line as it stands in a text: its name, its parameters with the `;` before each, and its value.
#[derive(Clone, Copy)]
pub struct Line<'a> {
    pub name: &'a [u8],
    pub params: &'a [u8],
    pub value: &'a [u8],
}

impl<'a> Line<'a> {
    /// Reads a line, and sees to all but the octets of its name.
    #[inline]
    pub fn read(text: &'a [u8]) -> Option<Line<'a>> {
        let end = text.iter().position(|it| matches!(it, b':' | b';'))?;
        let (name, rest) = text.split_at(end);
        let (params, value) = match rest {
            [b':', value @ ..] => (&rest[..0], value),
            _ => cut_params(rest)?,
        };
        Some(Line { name, params, value })
    }

    /// The first value of a parameter.
    pub fn param(self, name: &[u8]) -> Option<&'a [u8]> {
        let (_, values) = self.params().find(|it| it.0.eq_ignore_ascii_case(name))?;
        cut_value(values).map(|it| it.0)
    }

    /// The name of each parameter, and its values as they stand in the text.
    fn params(self) -> impl Iterator<Item = (&'a [u8], &'a [u8])> {
        let mut rest = self.params;
        std::iter::from_fn(move || {
            let (name, values, after) = cut_param(rest.strip_prefix(b";")?)?;
            rest = after;
            Some((name, values))
        })
    }

    /// Writes the line with its names in upper case, and with quotes only where a value of a parameter needs them.
    pub fn write(self, out: &mut Vec<u8>) {
        write_line(out, |out| {
            push_upper(self.name, out);
            for (name, values) in self.params() {
                out.push(b';');
                push_upper(name, out);
                out.push(b'=');
                push_values(values, out);
            }
            push(out, [b":", self.value]);
        });
    }
}

pub fn is_name(text: &[u8]) -> bool {
    !text.is_empty() && text.iter().all(|it| it.is_ascii_alphanumeric() || *it == b'-')
}

/// The parameters that a text begins with, and the value behind them.
fn cut_params(text: &[u8]) -> Option<(&[u8], &[u8])> {
    let mut rest = text;
    while let [b';', param @ ..] = rest {
        rest = cut_param(param)?.2;
    }
    Some((&text[..text.len() - rest.len()], rest.strip_prefix(b":")?))
}

/// The name of the parameter that a text begins with, its values with their commas and quotes, and what stands behind them.
fn cut_param(text: &[u8]) -> Option<(&[u8], &[u8], &[u8])> {
    let end = text.iter().position(|it| *it == b'=').filter(|end| is_name(&text[..*end]))?;
    let (name, values) = (&text[..end], &text[end + 1..]);
    let mut rest = cut_value(values)?.1;
    while let [b',', next @ ..] = rest {
        rest = cut_value(next)?.1;
    }
    Some((name, &values[..values.len() - rest.len()], rest))
}

/// The first of the values of a parameter, without its quotes, and what stands behind it.
fn cut_value(text: &[u8]) -> Option<(&[u8], &[u8])> {
    if let [b'"', quoted @ ..] = text {
        let end = quoted.iter().position(|it| *it == b'"')?;
        return Some((&quoted[..end], &quoted[end + 1..]));
    }
    let end = text.iter().position(|it| *it == b'"' || needs_quotes(it));
    Some(text.split_at(end.unwrap_or(text.len())))
}

pub fn needs_quotes(octet: &u8) -> bool {
    matches!(octet, b';' | b':' | b',')
}

/// Writes a line, folded after at most 75 octets.
pub fn write_line(out: &mut Vec<u8>, content: impl FnOnce(&mut Vec<u8>)) {
    let from = out.len();
    content(out);
    if out.len() - from > 75 {
        let whole = out.split_off(from);
        push_folded(&whole, out);
    }
    out.extend_from_slice(b"\r\n");
}

fn push_folded(line: &[u8], out: &mut Vec<u8>) {
    let (mut rest, mut room) = (line, 75);
    while rest.len() > room {
        let end = (0..=room).rev().find(|it| rest[*it] & 0xc0 != 0x80).unwrap_or(room);
        push(out, [&rest[..end], b"\r\n "]);
        (rest, room) = (&rest[end..], 74);
    }
    out.extend_from_slice(rest);
}

fn push_upper(name: &[u8], out: &mut Vec<u8>) {
    let from = out.len();
    out.extend_from_slice(name);
    out[from..].make_ascii_uppercase();
}

fn push_values(values: &[u8], out: &mut Vec<u8>) {
    if !values.contains(&b'"') {
        return out.extend_from_slice(values);
    }
    let mut rest = Some(values);
    while let Some((value, after)) = rest.and_then(cut_value) {
        let quote: &[u8] = if value.iter().any(needs_quotes) { b"\"" } else { b"" };
        push(out, [quote, value, quote]);
        rest = after.strip_prefix(b",");
        out.extend(rest.map(|_| b','));
    }
}

pub fn push<const N: usize>(out: &mut Vec<u8>, parts: [&[u8]; N]) {
    parts.into_iter().for_each(|it| out.extend_from_slice(it));
}

pub fn push_number(number: u32, out: &mut Vec<u8>) {
    if number > 9 {
        push_number(number / 10, out);
    }
    out.push(b'0' + (number % 10) as u8);
}
