//! How things are written: words of a row with its fields filled in, terms and values in a bounded length, types, lines in columns.

use crate::codes::{find, TermCode, TERM_FIELDS, TYPES};

/// Longer terms, values and types end with `..` here.
pub const LONGEST: usize = 200;

/// A piece of a row's words: text, or the field with this index.
pub enum Piece<'a> {
    Text(&'a str),
    Field(usize),
}

/// The pieces of a row's words, for fields with these letters.
pub fn pieces<'a>(words: &'a str, letters: &[char]) -> Vec<Piece<'a>> {
    let mut pieces = Vec::new();
    for (i, part) in words.split('$').enumerate() {
        let mut text = part;
        if i > 0 {
            let letter = part.chars().next();
            if let Some(field) = letters.iter().position(|&l| Some(l) == letter) {
                pieces.push(Piece::Field(field));
                text = &part[1..];
            }
        }
        if !text.is_empty() {
            pieces.push(Piece::Text(text));
        }
    }
    pieces
}

/// A row's words with its fields filled in.
pub fn filled(words: &str, letters: &[char], mut field: impl FnMut(usize) -> String) -> String {
    let pieces = pieces(words, letters);
    let texts = pieces.into_iter().map(|piece| match piece {
        Piece::Text(text) => text.to_string(),
        Piece::Field(i) => field(i),
    });
    texts.collect()
}

/// A text that takes words as long as they fit, and ends with `..` where one did not.
struct Short {
    text: String,
    longest: usize,
    cut: bool,
}

impl Short {
    fn new(longest: usize) -> Short {
        Short {
            text: String::new(),
            longest,
            cut: false,
        }
    }

    fn push(&mut self, word: &str) {
        if self.cut || word.len() > self.longest - self.text.len() {
            self.cut = true;
        } else {
            self.text.push_str(word);
        }
    }

    fn done(mut self) -> String {
        if self.cut {
            self.text.push_str("..");
        }
        self.text
    }
}

/// A node of a graph of terms or values.
pub enum Node {
    Leaf(String),
    Made(&'static TermCode, [usize; 2]),
}

/// Terms or values, which share their parts.
pub trait Graph {
    /// The node with this index, if it is there. Its parts have lower indexes.
    fn node(&self, index: usize) -> Option<Node>;
}

/// A term or value written out, as far as the longest text goes. Every node on the way writes a character before its parts, so that
/// no more is walked than is written, however much the graph unfolds to.
pub fn written(graph: &impl Graph, index: usize) -> String {
    let mut out = Short::new(LONGEST);
    write_node(graph, index, &mut out);
    out.done()
}

fn write_node(graph: &impl Graph, index: usize, out: &mut Short) {
    match graph.node(index) {
        None => out.push("?"),
        Some(Node::Leaf(word)) => out.push(&word),
        Some(Node::Made(row, parts)) => {
            for piece in pieces(row.text, &TERM_FIELDS) {
                match piece {
                    Piece::Text(text) => out.push(text),
                    Piece::Field(i) => write_node(graph, parts[i], out),
                }
                if out.cut {
                    return;
                }
            }
        }
    }
}

/// Where a type ends, if these bytes start with one.
pub fn type_end(bytes: &[u8], version: u16) -> Option<usize> {
    let mut due = 1;
    for (i, &code) in bytes.iter().enumerate() {
        due = due - 1 + find(TYPES, code, version)?.parts.len();
        if due == 0 {
            return Some(i + 1);
        }
    }
    None
}

/// Whether these bytes are exactly one type.
pub fn is_type(bytes: &[u8], version: u16) -> bool {
    type_end(bytes, version) == Some(bytes.len())
}

/// A type in words, in full.
pub fn whole_type(bytes: &[u8], version: u16) -> String {
    type_words(bytes, version, usize::MAX)
}

/// A type in words, in a bounded length.
pub fn short_type(bytes: &[u8], version: u16) -> String {
    type_words(bytes, version, LONGEST)
}

fn type_words(bytes: &[u8], version: u16, longest: usize) -> String {
    let mut out = Short::new(longest);
    // How many parts are still to come of each former whose bracket is open.
    let mut open: Vec<usize> = Vec::new();
    if !is_type(bytes, version) {
        out.push("not a type: ");
        out.push(&hex(bytes));
        return out.done();
    }
    for &code in bytes {
        let Some(row) = find(TYPES, code, version) else { break };
        out.push(row.word);
        if !row.parts.is_empty() {
            out.push("(");
            open.push(row.parts.len());
            continue;
        }
        while let Some(left) = open.pop() {
            if left > 1 {
                out.push(", ");
                open.push(left - 1);
                break;
            }
            out.push(")");
        }
    }
    out.done()
}

/// Bytes in hex, as far as the longest text goes.
pub fn hex(bytes: &[u8]) -> String {
    if bytes.is_empty() {
        return "no bytes".to_string();
    }
    let mut out = Short::new(LONGEST);
    for (i, byte) in bytes.iter().enumerate() {
        out.push(&format!("{}{byte:02x}", if i > 0 { " " } else { "" }));
        if out.cut {
            break;
        }
    }
    out.done()
}

/// So many of something: `1 step`, `2 steps`.
pub fn counted(count: usize, one: &str, many: &str) -> String {
    format!("{count} {}", if count == 1 { one } else { many })
}

/// A heading and its lines in columns, the first one to the right; nothing at all where there are no lines.
pub fn section(heading: &str, rows: &[Vec<String>]) -> String {
    /// A column wider than this leaves the next one out of line.
    const WIDEST: usize = 44;
    if rows.is_empty() {
        return String::new();
    }
    let columns = rows.iter().map(Vec::len).max().unwrap_or(0);
    let width = |column: usize| {
        let widths = rows
            .iter()
            .filter_map(|row| row.get(column))
            .map(|cell| cell.chars().count());
        widths.filter(|&width| width <= WIDEST).max().unwrap_or(0)
    };
    let widths: Vec<usize> = (0..columns).map(width).collect();
    let mut out = format!("\n{heading}\n");
    for row in rows {
        let mut line = String::new();
        for (column, cell) in row.iter().enumerate() {
            let wide = widths[column];
            line += &match column {
                0 => format!("  {cell:>wide$}"),
                _ => format!("  {cell:<wide$}"),
            };
        }
        out += line.trim_end();
        out.push('\n');
    }
    out
}
