//! Folders with rules and fleets, and what a call with them must print or say.

use crate::typed::{folder, Left};
use second::notation::text as rules;

/// Two labels of class 1, one of them spoiled (class 2).
pub const LABELS: &str = "C 1 0, C 2 1, S, B 2 4, V 1, V 1, A 1, W 1, A 2, W 1, R 2 2, T";
/// One label, then exception 1.
pub const EXCEPTION: &str = "C 1 0, F 255 0, C 2 1, S, B 2 3, V 1, V 1, A 1, W 1, G 0, I 2, T";
/// The two classes and no label.
pub const NO_LABEL: &str = "C 1 0, C 2 1, S, B 0 1, T";

/// A folder of its own for a test, with these rules in it.
pub fn site(name: &str, files: &[(&str, &str)]) -> String {
    let folder = folder().join(name);
    let _ = std::fs::remove_dir_all(&folder);
    std::fs::create_dir_all(&folder).unwrap();
    for (name, program) in files {
        std::fs::write(folder.join(name), rules(program)).unwrap();
    }
    folder.to_str().unwrap().to_string()
}

/// A fleet in a folder: lines with spaces for tabs.
pub fn fleet(site: &str, name: &str, lines: &[&str]) -> String {
    let path = format!("{site}/{name}");
    let text: String = lines.iter().map(|line| line.replace(' ', "\t") + "\n").collect();
    std::fs::write(&path, text).unwrap();
    path
}

pub fn printed(left: &Left, text: &str) {
    assert_eq!((left.printed.as_str(), left.said.as_str(), left.status), (text, "", Some(0)), "{left:?}");
}

pub fn said(left: &Left, beginning: &str, status: i32) {
    assert_eq!((left.printed.as_str(), left.status), ("", Some(status)), "{left:?}");
    assert!(left.said.starts_with(beginning), "{beginning}: {left:?}");
}
