//! Rattle source, laid out as its formatter has it.

use crate::SEED;

/// How a file of vectors begins: what it holds and how it was made.
pub fn header(holds: &str) -> String {
    format!(
        "// {holds}\n\
         // Made by the command `rust/run-vectors` from the real twenty-first source (seed {SEED}), and\n\
         // not edited by hand.\n\n"
    )
}

/// A line has so many columns at most.
const WIDTH: usize = 100;

/// Words of so many digits or fewer stand many to a line, longer ones each on its own.
const SHORT: usize = 10;

/// An array of words, with a comment above.
pub fn array(comment: &str, name: &str, words: &[u64]) -> String {
    let length = words.len();
    format!(
        "// {comment}\npub const {name}: [u64; {length}] = [\n{}];\n",
        lines(1, words)
    )
}

/// A list of more columns than this does not stand on one line with its brackets.
const LIST: usize = 60;

/// An array of words as an entry of a table, at a depth.
pub fn nested(depth: usize, words: &[u64]) -> String {
    let indent = "    ".repeat(depth);
    let texts: Vec<String> = words.iter().map(u64::to_string).collect();
    let line = texts.join(", ");
    if line.len() <= LIST {
        return format!("{indent}[{line}],\n");
    }
    format!("{indent}[\n{}{indent}],\n", lines(depth + 1, words))
}

/// A tuple as an entry of a table.
pub fn tuple(parts: &[String]) -> String {
    let line = parts.join(", ");
    if line.len() <= LIST {
        return format!("    ({line}),\n");
    }
    let parts: Vec<String> = parts
        .iter()
        .map(|part| format!("        {part},\n"))
        .collect();
    format!("    (\n{}    ),\n", parts.concat())
}

/// A table of entries of a type, with a comment above.
pub fn table(comment: &str, name: &str, entry: &str, rows: &[String]) -> String {
    let length = rows.len();
    format!(
        "// {comment}\npub const {name}: [{entry}; {length}] = [\n{}];\n",
        rows.concat()
    )
}

/// The words in lines at a depth.
fn lines(depth: usize, words: &[u64]) -> String {
    let indent = "    ".repeat(depth);
    let words: Vec<String> = words.iter().map(|word| format!("{word},")).collect();
    let width = match words.iter().all(|word| word.len() <= SHORT + 1) {
        true => WIDTH,
        false => 0,
    };
    let mut text = String::new();
    let mut line = String::new();
    for word in &words {
        if !line.is_empty() && indent.len() + line.len() + 1 + word.len() > width {
            text += &format!("{indent}{line}\n");
            line.clear();
        }
        if !line.is_empty() {
            line.push(' ');
        }
        line += word;
    }
    text + &format!("{indent}{line}\n")
}
