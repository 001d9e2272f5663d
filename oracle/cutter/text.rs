//! Finding items in Rust text, and substitutions that must match a stated number of times.

/// One substitution: `old` stands `times` times and becomes `new`.
pub struct Edit {
    pub old: &'static str,
    pub new: &'static str,
    pub times: usize,
}

/// A stretch of a source file: whole lines, with the number of the first.
pub struct Piece {
    pub text: String,
    pub first_line: usize,
}

impl Piece {
    pub fn last_line(&self) -> usize {
        self.first_line + self.text.lines().count() - 1
    }
}

/// The item whose first line begins with `head`, with its attributes and comments. `head` has the item's
/// indentation, and must begin exactly one line of `text`.
pub fn item(text: &str, head: &str) -> Result<Piece, String> {
    let starts = line_starts(text, head);
    let [start] = starts[..] else {
        return Err(format!("`{head}` begins {} lines, not one", starts.len()));
    };
    Ok(piece(text, first_of_item(text, start), end_of_item(text, start)))
}

/// The function that begins with `head` in the one of the blocks `impl_head` that holds it.
pub fn method(text: &str, impl_head: &str, head: &str) -> Result<Piece, String> {
    let mut found = Vec::new();
    for block in line_starts(text, impl_head) {
        let end = end_of_item(text, block);
        let starts = line_starts(text, head);
        found.extend(starts.into_iter().filter(|&s| block < s && s < end));
    }
    let [start] = found[..] else {
        return Err(format!("`{head}` begins {} functions of `{impl_head}`, not one", found.len()));
    };
    Ok(piece(text, first_of_item(text, start), end_of_item(text, start)))
}

/// `text` with `edit` made, or why it cannot be made.
pub fn substitute(text: &str, edit: &Edit) -> Result<String, String> {
    let times = text.matches(edit.old).count();
    if times != edit.times {
        return Err(format!("`{}` stands {times} times, not {}", edit.old, edit.times));
    }
    Ok(text.replace(edit.old, edit.new))
}

/// `text` without the one line that holds the field `name`, its attributes and its comments.
pub fn drop_field(text: &str, name: &str) -> Result<String, String> {
    let lines: Vec<&str> = text.lines().collect();
    let is_field = |line: &str| {
        let line = line.trim_start();
        let line = line.strip_prefix("pub ").unwrap_or(line);
        let line = line.strip_prefix("pub(crate) ").unwrap_or(line);
        line.strip_prefix(name).is_some_and(|rest| rest.starts_with(':')) && line.ends_with(',')
    };
    let found: Vec<usize> = (0..lines.len()).filter(|&i| is_field(lines[i])).collect();
    let [at] = found[..] else {
        return Err(format!("the field `{name}` stands {} times, not once", found.len()));
    };
    let mut first = at;
    while first > 0 && is_attached(lines[first - 1]) {
        first -= 1;
    }
    let kept = lines[..first].iter().chain(&lines[at + 1..]);
    Ok(kept.flat_map(|line| [line, "\n"]).collect())
}

/// `text` without the one statement that assigns to the field `name` of `self`.
pub fn drop_assignment(text: &str, name: &str) -> Result<String, String> {
    let starts = line_starts(text, &format!("        self.{name} = "));
    let [start] = starts[..] else {
        return Err(format!("`self.{name}` is assigned {} times, not once", starts.len()));
    };
    Ok(format!("{}{}", &text[..start], &text[end_of(text, start, b';')..]))
}

/// The offsets of the lines that begin with `head`.
fn line_starts(text: &str, head: &str) -> Vec<usize> {
    let mut starts = Vec::new();
    let mut at = 0;
    for line in text.split_inclusive('\n') {
        if line.starts_with(head) {
            starts.push(at);
        }
        at += line.len();
    }
    starts
}

/// Where the attributes and comments above the item at `start` begin.
fn first_of_item(text: &str, start: usize) -> usize {
    let mut first = start;
    while first > 0 {
        let above = text[..first - 1].rfind('\n').map_or(0, |i| i + 1);
        let line = &text[above..first];
        // The last line of an attribute that was broken over several lines.
        if line.trim() == ")]" {
            let Some(open) = text[..above].rfind("#[") else {
                return first;
            };
            first = text[..open].rfind('\n').map_or(0, |i| i + 1);
        } else if is_attached(line) {
            first = above;
        } else {
            return first;
        }
    }
    first
}

/// Whether a line belongs to the item below it.
fn is_attached(line: &str) -> bool {
    let line = line.trim_start();
    line.starts_with("///") || line.starts_with("#[")
}

/// The end of the item at `start`: past the brace that closes the first one opened, or the first semicolon
/// outside brackets, with the rest of its line.
fn end_of_item(text: &str, start: usize) -> usize {
    end_of(text, start, b'}').min(end_of(text, start, b';'))
}

/// The end of the line with the first `end` that stands outside brackets, or closes the outermost.
fn end_of(text: &str, start: usize, end: u8) -> usize {
    let bytes = text.as_bytes();
    let mut depth = 0usize;
    let mut i = start;
    while i < bytes.len() {
        let next = after_token(bytes, i);
        match bytes[i] {
            _ if next > i + 1 => {}
            b'{' | b'(' | b'[' => depth += 1,
            b'}' | b')' | b']' => depth = depth.saturating_sub(1),
            _ => {}
        }
        if depth == 0 && bytes[i] == end && next == i + 1 {
            return end_of_line(text, i);
        }
        i = next;
    }
    text.len()
}

fn end_of_line(text: &str, at: usize) -> usize {
    text[at..].find('\n').map_or(text.len(), |i| at + i + 1)
}

/// The offset past the comment, string or character that begins at `i`, or past the one byte there.
fn after_token(bytes: &[u8], i: usize) -> usize {
    let find = |from: usize, end: u8| (from..bytes.len()).find(|&j| bytes[j] == end);
    match bytes[i] {
        b'/' if bytes.get(i + 1) == Some(&b'/') => find(i, b'\n').unwrap_or(bytes.len()),
        b'"' => {
            let mut j = i + 1;
            while j < bytes.len() && bytes[j] != b'"' {
                j += if bytes[j] == b'\\' { 2 } else { 1 };
            }
            j + 1
        }
        // A quote is a character only if it closes again; else it is a lifetime.
        b'\'' if bytes.get(i + 1) == Some(&b'\\') => find(i + 3, b'\'').map_or(i + 1, |j| j + 1),
        b'\'' if bytes.get(i + 2) == Some(&b'\'') => i + 3,
        _ => i + 1,
    }
}

fn piece(text: &str, from: usize, to: usize) -> Piece {
    Piece { text: text[from..to].to_string(), first_line: text[..from].matches('\n').count() + 1 }
}
