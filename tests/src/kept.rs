//! Inputs kept as files: one comment line that says what differed, then lines of a name and a value.

use std::fmt::Write as _;
use std::fs;
use std::path::{Path, PathBuf};

use tests::generate::nests::NestInput;
use tests::generate::{SheetInput, Style};

pub enum Input {
    Sheet(SheetInput),
    Nest(NestInput),
}

/// All kept inputs of a folder, by name.
pub fn all(folder: &Path) -> Result<Vec<(PathBuf, Input)>, String> {
    let entries = fs::read_dir(folder).map_err(|error| format!("{}: {error}", folder.display()))?;
    let mut paths: Vec<PathBuf> = entries.filter_map(|entry| entry.ok().map(|entry| entry.path())).collect();
    paths.retain(|path| path.extension().is_some_and(|extension| extension == "txt"));
    paths.sort();
    let mut inputs = Vec::new();
    for path in paths {
        let text = fs::read_to_string(&path).map_err(|error| format!("{}: {error}", path.display()))?;
        let input = parsed(&text).ok_or_else(|| format!("{}: not an input", path.display()))?;
        inputs.push((path, input));
    }
    Ok(inputs)
}

fn parsed(text: &str) -> Option<Input> {
    let value = |name: &str| {
        let line = text.lines().find(|line| line.split(' ').next() == Some(name))?;
        Some(line[name.len()..].trim())
    };
    let memory = bytes(value("memory")?)?;
    let vl = value("vl")?.parse().ok()?;
    match value("sheet") {
        Some(sheet) => Some(Input::Sheet(SheetInput { style: Style::Near, sheet: bytes(sheet)?, vl, memory })),
        None => {
            let (nest, room) = (bytes(value("nest")?)?, value("room")?.parse().ok()?);
            Some(Input::Nest(NestInput { style: Style::Near, nest, room, memory, vls: vec![vl] }))
        }
    }
}

fn bytes(hex: &str) -> Option<Vec<u8>> {
    let digits = hex.replace(' ', "");
    if digits.len() % 2 != 0 {
        return None;
    }
    (0..digits.len()).step_by(2).map(|at| u8::from_str_radix(digits.get(at..at + 2)?, 16).ok()).collect()
}

fn hex(bytes: &[u8]) -> String {
    bytes.iter().fold(String::new(), |mut text, byte| {
        let _ = write!(text, "{byte:02x}");
        text
    })
}

pub fn keep_sheet(folder: &Path, name: &str, differed: &str, input: &SheetInput) -> String {
    let text = format!("# {differed}\nsheet {}\nvl {}\nmemory {}\n", hex(&input.sheet), input.vl, hex(&input.memory));
    keep(folder, name, &text)
}

pub fn keep_nest(folder: &Path, name: &str, differed: &str, input: &NestInput) -> String {
    let vl = input.vls.first().copied().unwrap_or(8);
    let text = format!("# {differed}\nnest {}\nroom {}\nvl {vl}\nmemory {}\n", hex(&input.nest), input.room, hex(&input.memory));
    keep(folder, name, &text)
}

fn keep(folder: &Path, name: &str, text: &str) -> String {
    let path = folder.join(format!("{name}.txt"));
    match fs::write(&path, text) {
        Ok(()) => format!("kept as {}", path.display()),
        Err(error) => format!("could not be kept as {}: {error}", path.display()),
    }
}
