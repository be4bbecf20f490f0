//! Plants a slip: replaces one text of a compiled copy by another.
//!
//! A slip's file has lines of comment, then `in: PATH`, `old:`, lines, `new:`, lines.

use std::fs;
use std::path::Path;

/// The parts of a slip's file.
struct Slip {
    path: String,
    old: String,
    new: String,
}

fn parse(text: &str) -> Option<Slip> {
    let (head, rest) = text.split_once("\nold:\n")?;
    let (old, new) = rest.split_once("\nnew:\n")?;
    let path = head.lines().find_map(|line| line.strip_prefix("in: "))?;
    let new = new.strip_suffix('\n').unwrap_or(new);
    Some(Slip { path: path.into(), old: old.into(), new: new.into() })
}

/// Plants the slip of a file in the copy in a folder. The old text must be there exactly once.
pub fn plant(file: &str, folder: &str) -> Result<(), String> {
    let text = fs::read_to_string(file).map_err(|error| format!("{file}: {error}"))?;
    let slip = parse(&text).ok_or(format!("{file}: not a slip"))?;
    let path = Path::new(folder).join(&slip.path);
    let source = fs::read_to_string(&path).map_err(|error| format!("{}: {error}", slip.path))?;
    let found = source.matches(&slip.old).count();
    if found != 1 {
        return Err(format!("{file}: the old text is there {found} times"));
    }
    fs::write(&path, source.replace(&slip.old, &slip.new)).map_err(|error| error.to_string())
}
