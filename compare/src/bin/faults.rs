//! Plants faults in copies of the second implementation and counts the gate's cases that notice each.
//! A fault is an edit of `second/faults`: a comment, then a file, a text that occurs in it once, and what stands there
//! instead. Each copy and the program that judges them are made and built under target/faults.
//!
//! Arguments: SEEDS FIRST-SEED COUNT for that many faults by rotation, which goes by the first seed, each until a case
//! notices it; without COUNT all faults are tried on all cases. `faults SEEDS FIRST-SEED NAME…` does so for the faults of
//! these names.

use compare::faults::ONCE;
use std::fs;
use std::path::{Path, PathBuf};
use std::process::Command;

/// Modules of the second implementation that a copy needs not: what generates cases, how they are written, and what asks
/// them.
const LEFT_OUT: [&str; 4] = ["generate", "notation", "services", "vectors"];

/// A fault: its name and its changes.
struct Fault {
    name: String,
    changes: Vec<Change>,
}

/// In a file, a text that occurs once and what takes its place.
#[derive(Default)]
struct Change {
    file: String,
    old: String,
    new: String,
}

fn main() {
    if let Err(what) = try_faults() {
        eprintln!("faults: {what}");
        std::process::exit(2);
    }
}

fn try_faults() -> Result<(), String> {
    let root = Path::new(env!("CARGO_MANIFEST_DIR")).join("..");
    let given: Vec<String> = std::env::args().skip(1).collect();
    let [seeds, first, chosen @ ..] = &given[..] else {
        return Err("arguments: SEEDS FIRST-SEED [COUNT | NAME…]".to_string());
    };
    let faults = chosen_of(read_faults(&root.join("second/faults"))?, first, chosen)?;
    let made = root.join("target/faults");
    for fault in &faults {
        plant(fault, &root.join("second/src"), &made.join(&fault.name))?;
    }
    write_judge(&faults, &made)?;
    let mut judge = vec!["run", "--offline", "--quiet", "-p", "judge", "--", seeds, first];
    if count_of(chosen).is_some() {
        judge.push(ONCE);
    }
    let status = Command::new("cargo").args(judge).current_dir(&made).env_remove("CARGO_TARGET_DIR").status();
    let status = status.map_err(|error| format!("cargo: {error}"))?;
    match status.code() {
        Some(0) => Ok(()),
        Some(1) => std::process::exit(1),
        _ => Err(format!("the judge did not end: {status}")),
    }
}

/// The faults that are asked for: by name, so many by rotation, or all.
fn chosen_of(mut faults: Vec<Fault>, first: &str, chosen: &[String]) -> Result<Vec<Fault>, String> {
    if chosen.is_empty() {
        return Ok(faults);
    }
    if let Some(count) = count_of(chosen) {
        let first: usize = first.parse().map_err(|_| format!("{first} is not a seed"))?;
        let rounds = faults.len().div_ceil(count.max(1)).max(1);
        faults.rotate_left(first % rounds * count);
        faults.truncate(count);
        return Ok(faults);
    }
    let known = |name: &String| faults.iter().any(|fault| fault.name == *name);
    if let Some(name) = chosen.iter().find(|name| !known(name)) {
        return Err(format!("there is no second/faults/{name}.edit"));
    }
    faults.retain(|fault| chosen.contains(&fault.name));
    Ok(faults)
}

/// How many faults are asked for by rotation.
fn count_of(chosen: &[String]) -> Option<usize> {
    chosen.first()?.parse().ok()
}

/// All faults, by name.
fn read_faults(folder: &Path) -> Result<Vec<Fault>, String> {
    let listed = fs::read_dir(folder).map_err(at(folder))?;
    let mut paths: Vec<PathBuf> = listed.filter_map(|entry| entry.ok().map(|entry| entry.path())).collect();
    paths.retain(|path| path.extension().is_some_and(|extension| extension == "edit"));
    paths.sort();
    paths.iter().map(|path| read_fault(path)).collect()
}

/// A fault from its file: lines of `file: `, `old: ` and `new: `, in this order for each change. In a text `\n` stands
/// for a line feed.
fn read_fault(path: &Path) -> Result<Fault, String> {
    let mut changes: Vec<Change> = Vec::new();
    for line in fs::read_to_string(path).map_err(at(path))?.lines().filter(|line| !line.starts_with('#')) {
        let (key, value) = line.split_once(": ").unwrap_or((line.trim_end_matches(':'), ""));
        match (key, changes.last_mut()) {
            ("file", _) => changes.push(Change { file: value.to_string(), ..Change::default() }),
            ("old", Some(change)) => change.old = value.replace("\\n", "\n"),
            ("new", Some(change)) => change.new = value.replace("\\n", "\n"),
            _ => return Err(format!("{}: {line}", path.display())),
        }
    }
    let name = path.file_stem().unwrap_or_default().to_string_lossy().into_owned();
    Ok(Fault { name, changes })
}

/// Makes a copy of the second implementation with a fault in it, as a crate of the fault's name.
fn plant(fault: &Fault, source: &Path, copy: &Path) -> Result<(), String> {
    let mut files = copied_files(source, Path::new(""))?;
    for change in &fault.changes {
        let file = files.iter_mut().find(|(path, _)| Path::new("src").join(path) == Path::new(&change.file));
        let (_, text) = file.ok_or(format!("{}: no file {}", fault.name, change.file))?;
        if change.old == change.new || text.matches(&change.old).count() != 1 {
            return Err(format!("{}: the old text must occur once in {}", fault.name, change.file));
        }
        *text = text.replace(&change.old, &change.new);
    }
    for (path, text) in files {
        write(&copy.join("src").join(path), &text)?;
    }
    // A fault may leave something unused.
    let manifest = manifest(&fault.name, "") + "\n[lints.rust]\nunused = \"allow\"\n";
    write(&copy.join("Cargo.toml"), &manifest)
}

/// The files that a copy has, by their paths from `src/`.
fn copied_files(source: &Path, within: &Path) -> Result<Vec<(PathBuf, String)>, String> {
    let mut files = Vec::new();
    let folder = source.join(within);
    for entry in fs::read_dir(&folder).map_err(at(&folder))?.filter_map(Result::ok) {
        let path = within.join(entry.file_name());
        let stem = path.file_stem().unwrap_or_default().to_string_lossy().into_owned();
        if LEFT_OUT.contains(&&stem[..]) || stem == "bin" {
            continue;
        }
        if entry.path().is_dir() {
            files.extend(copied_files(source, &path)?);
            continue;
        }
        let text = fs::read_to_string(entry.path()).map_err(at(&entry.path()))?;
        let is_left_out = |line: &&str| LEFT_OUT.iter().any(|module| *line == format!("pub mod {module};"));
        let kept = text.lines().filter(|line| !is_left_out(line)).map(|line| format!("{line}\n"));
        files.push((path, kept.collect()));
    }
    Ok(files)
}

/// Writes the program that judges the faults, and the workspace of all.
fn write_judge(faults: &[Fault], made: &Path) -> Result<(), String> {
    let names = || faults.iter().map(|fault| &fault.name[..]);
    let copies: String = names().map(|name| format!("{name} = {{ path = \"../{name}\" }}\n")).collect();
    let own = "compare = { path = \"../../../compare\" }\nsecond = { path = \"../../../second\" }\n";
    write(&made.join("judge/Cargo.toml"), &manifest("judge", &format!("{own}{copies}")))?;
    let list: String = names().map(|name| format!("compare::faulty!({name}), ")).collect();
    let main = format!("fn main() {{\n    compare::faults::judge(&[{list}]);\n}}\n");
    write(&made.join("judge/src/main.rs"), &main)?;
    let members: String = names().chain(["judge"]).map(|name| format!("\"{name}\", ")).collect();
    let profile = "[profile.dev]\nopt-level = 3\noverflow-checks = true\ndebug = false\n";
    let workspace = format!("[workspace]\nresolver = \"2\"\nmembers = [{members}]\n\n{profile}");
    write(&made.join("Cargo.toml"), &workspace)
}

fn manifest(name: &str, dependencies: &str) -> String {
    let package = format!("[package]\nname = \"{name}\"\nversion = \"0.1.0\"\nedition = \"2021\"\n");
    format!("{package}\n[dependencies]\n{dependencies}")
}

/// Writes a file where it is not already so, and so that it is not built again without need.
fn write(path: &Path, text: &str) -> Result<(), String> {
    if fs::read_to_string(path).is_ok_and(|known| known == text) {
        return Ok(());
    }
    let folder = path.parent().unwrap_or(Path::new("."));
    fs::create_dir_all(folder).map_err(at(folder))?;
    fs::write(path, text).map_err(at(path))
}

/// Says which file an error is about.
fn at(path: &Path) -> impl Fn(std::io::Error) -> String + '_ {
    move |error| format!("{}: {error}", path.display())
}
