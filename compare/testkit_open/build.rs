//! Copies the six files of `testkit` and appends accessors, so that the comparison can read and
//! set what is private in them.
//!
//! The original text is never edited: a copy is the whole file, then the file of the same name
//! in `appended/`, if it has one. All that is appended has a name with `open_` or `Open` in
//! front, so that it cannot change what the original means by its own names.

use std::env;
use std::fs;
use std::path::Path;

const FILES: [&str; 6] = [
    "error",
    "evidence",
    "gtpu",
    "measurement",
    "reflector",
    "traffic",
];

/// Those of the files to which something is appended.
const OPENED: [&str; 3] = ["measurement", "reflector", "traffic"];

fn main() {
    let out = env::var("OUT_DIR").expect("cargo sets OUT_DIR");
    let mut modules = String::new();
    for name in FILES {
        let mut text = read(&format!("../testkit/src/{name}.rs"));
        if OPENED.contains(&name) {
            text.push('\n');
            text.push_str(&read(&format!("appended/{name}.rs")));
        }
        write(&out, &format!("{name}.rs"), &text);
        modules.push_str(&format!("pub mod {name};\n"));
    }
    write(&out, "modules.rs", &modules);
}

/// The text of a file, which makes cargo run this again whenever it changes.
fn read(path: &str) -> String {
    println!("cargo:rerun-if-changed={path}");
    fs::read_to_string(path).unwrap_or_else(|error| panic!("{path}: {error}"))
}

fn write(folder: &str, name: &str, text: &str) {
    let path = Path::new(folder).join(name);
    fs::write(&path, text).unwrap_or_else(|error| panic!("{}: {error}", path.display()));
}
