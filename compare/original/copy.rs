// The build scripts of `original` and `again` share this file. It copies the
// original's source files into the build folder, line by line, and writes down
// each line that it had to change. No line is added or removed, so the numbers
// of the lines stay those of the original.

use std::fs;
use std::path::{Path, PathBuf};

/// The files of the original that document 01 takes.
const TAKEN: [&str; 7] =
    ["lib.rs", "nco.rs", "frame.rs", "resample.rs", "carrier.rs", "rx.rs", "tx.rs"];

/// An edit of one place, made on purpose: see `again/slips.rs`.
pub struct Slip {
    pub name: &'static str,
    pub file: &'static str,
    pub old: &'static str,
    pub new: &'static str,
}

/// Copies the original to OUT_DIR, with one slip or none.
pub fn copy_original(slip: Option<&Slip>) {
    println!("cargo:rerun-if-env-changed=MODEM_SRC");
    let from = source_folder().join("modem-core").join("src");
    let to = PathBuf::from(env("OUT_DIR"));
    let mut changes = Vec::new();
    for name in TAKEN {
        let file = from.join(name);
        println!("cargo:rerun-if-changed={}", file.display());
        let text = fs::read_to_string(&file).unwrap_or_else(|e| {
            panic!("{}: {e} (set MODEM_SRC to the folder that holds modem-core)", file.display())
        });
        let mut copy = adapt(name, &text, &mut changes);
        if let Some(slip) = slip {
            if slip.file == name {
                copy = apply(slip, &copy);
            }
        }
        write(&to.join(name), &copy);
    }
    write(&to.join("changes.txt"), &(changes.join("\n") + "\n"));
}

/// MODEM_SRC, seen from the folder of the whole comparison, or
/// `../shared/docs/src` from the root of the repository.
fn source_folder() -> PathBuf {
    let comparison = Path::new(&env("CARGO_MANIFEST_DIR")).join("..");
    let named = std::env::var_os("MODEM_SRC");
    comparison.join(named.unwrap_or_else(|| "../../shared/docs/src".into()))
}

/// One file's text with the changed lines, which are noted in `changes`.
fn adapt(name: &str, text: &str, changes: &mut Vec<String>) -> String {
    let mut in_struct = false;
    let mut copy = String::new();
    for (i, line) in text.lines().enumerate() {
        if line.starts_with("pub struct ") && line.ends_with('{') {
            in_struct = true;
        } else if line == "}" {
            in_struct = false;
        }
        let changed = if name == "lib.rs" {
            root_line(line)
        } else if in_struct && is_private_field(line) {
            Some((format!("    pub {}", line.trim_start()), "field made visible"))
        } else if name == "rx.rs" && line.starts_with("    fn push_sample(") {
            // A board's receiver is looked at behind each step.
            Some((format!("    pub {}", line.trim_start()), "function made visible"))
        } else {
            None
        };
        match changed {
            Some((new, why)) => {
                changes.push(format!("{name}:{}: {why}: {}", i + 1, line.trim()));
                copy.push_str(&new);
            }
            None => copy.push_str(line),
        }
        copy.push('\n');
    }
    copy
}

/// What must change in lib.rs, which is included by the crate's own root.
fn root_line(line: &str) -> Option<(String, &'static str)> {
    if let Some(words) = line.strip_prefix("//!") {
        // An included file can't open with the documentation of its crate.
        return Some((format!("//{words}"), "documentation made a comment"));
    }
    if line.starts_with("#![") {
        return Some((format!("// {line}"), "attribute moved to the root"));
    }
    let module = line.strip_prefix("pub mod ")?.strip_suffix(';')?;
    if TAKEN.contains(&format!("{module}.rs").as_str()) {
        return None;
    }
    Some((format!("// {line}"), "module not taken"))
}

/// A line of a struct such as `    phase: f64,`.
fn is_private_field(line: &str) -> bool {
    let Some((name, _)) = line.split_once(": ") else {
        return false;
    };
    let Some(name) = name.strip_prefix("    ") else {
        return false;
    };
    name.chars().all(|c| c.is_ascii_lowercase() || c.is_ascii_digit() || c == '_')
}

pub fn apply(slip: &Slip, text: &str) -> String {
    assert_eq!(
        text.matches(slip.old).count(),
        1,
        "slip {}: its place in {} is not there exactly once",
        slip.name,
        slip.file
    );
    text.replace(slip.old, slip.new)
}

pub fn write(path: &Path, text: &str) {
    fs::write(path, text).unwrap_or_else(|e| panic!("{}: {e}", path.display()));
}

pub fn env(name: &str) -> String {
    std::env::var(name).unwrap_or_else(|e| panic!("{name}: {e}"))
}
