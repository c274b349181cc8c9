#[path = "../original/copy.rs"]
mod copy;
mod slips;

use std::fs;
use std::path::Path;

/// The files of the comparison that stand before the original on either side.
const BEFORE: [&str; 3] = ["hearing.rs", "judge.rs", "oracle.rs"];

/// MODEM_SLIP names the slip to build in; none by default.
fn main() {
    println!("cargo:rerun-if-changed=../original/copy.rs");
    println!("cargo:rerun-if-changed=slips.rs");
    println!("cargo:rerun-if-env-changed=MODEM_SLIP");
    let name = std::env::var("MODEM_SLIP").unwrap_or_default();
    let slip = slips::SLIPS.iter().find(|slip| slip.name == name);
    assert!(slip.is_some() || name.is_empty(), "MODEM_SLIP: no slip is named {name}");
    copy::copy_original(slip);
    BEFORE.iter().for_each(|file| copy_before(file, slip));
}

/// Copies such a file to OUT_DIR, where it is included: its opening
/// documentation, which an included file can't have, becomes a comment.
fn copy_before(file: &str, slip: Option<&copy::Slip>) {
    let from = Path::new("../src").join(file);
    println!("cargo:rerun-if-changed={}", from.display());
    let text = fs::read_to_string(&from).expect("a file of the comparison");
    let text = text.replace("//!", "//");
    let text = match slip {
        Some(slip) if slip.file == file => copy::apply(slip, &text),
        _ => text,
    };
    copy::write(&Path::new(&copy::env("OUT_DIR")).join(file), &text);
}
