//! Lays lumo's files out for building: copies them, applies the replacements that a list names, and
//! adds the stubs of the files that are not at hand.
//!
//! patch LUMO_SRC PATCHES STUBS OUT
//!
//! LUMO_SRC holds lumo's `src`. A text to be replaced has to be found exactly as often as the list
//! says, once where it says nothing; otherwise nothing is built.
use std::fs;
use std::path::{Path, PathBuf};
use std::process::exit;

struct Patch {
    file: String,
    reason: String,
    times: usize,
    find: String,
    with: String,
}

fn stop(message: String) -> ! {
    eprintln!("compare: {message}");
    exit(2)
}

fn read(path: &Path) -> String {
    fs::read_to_string(path).unwrap_or_else(|e| stop(format!("cannot read {}: {e}", path.display())))
}

fn write(path: &Path, text: &str) {
    fs::create_dir_all(path.parent().unwrap()).unwrap();
    // An unchanged file keeps its time.
    if fs::read_to_string(path).is_ok_and(|old| old == text) {
        return;
    }
    fs::write(path, text).unwrap_or_else(|e| stop(format!("cannot write {}: {e}", path.display())))
}

/// The list: `== FILE`, then for each patch `-- REASON` (one or more lines), `<<<<` or `<<<< TIMES`,
/// the text, `====`, the text in its place, `>>>>`.
fn parse(list: &str) -> Vec<Patch> {
    let mut patches = vec![];
    let mut file = String::new();
    let mut reason = String::new();
    let mut lines = list.lines();
    while let Some(line) = lines.next() {
        if let Some(name) = line.strip_prefix("== ") {
            file = name.to_string();
            reason.clear();
        } else if let Some(text) = line.strip_prefix("-- ") {
            if !reason.is_empty() {
                reason.push(' ');
            }
            reason.push_str(text);
        } else if let Some(times) = line.strip_prefix("<<<<") {
            let times = times.trim();
            let times = if times.is_empty() { 1 } else { times.parse().unwrap() };
            let mut find = vec![];
            let mut with = vec![];
            for line in lines.by_ref().take_while(|l| *l != "====") {
                find.push(line);
            }
            for line in lines.by_ref().take_while(|l| *l != ">>>>") {
                with.push(line);
            }
            patches.push(Patch {
                file: file.clone(),
                reason: std::mem::take(&mut reason),
                times,
                find: find.join("\n"),
                with: with.join("\n"),
            });
        }
    }
    patches
}

fn apply(text: String, p: &Patch) -> String {
    let found = text.matches(&p.find).count();
    if found != p.times {
        stop(format!(
            "{}: a text to be replaced ({}) is found {found} times and not {}:\n{}",
            p.file, p.reason, p.times, p.find
        ));
    }
    text.replace(&p.find, &p.with)
}

/// The files below `dir`, as paths from it.
fn files(dir: &Path, below: &Path, out: &mut Vec<PathBuf>) {
    let entries = fs::read_dir(dir.join(below))
        .unwrap_or_else(|e| stop(format!("cannot list {}: {e}", dir.join(below).display())));
    for entry in entries {
        let entry = entry.unwrap();
        let path = below.join(entry.file_name());
        if entry.file_type().unwrap().is_dir() {
            files(dir, &path, out);
        } else if path.extension().is_some_and(|e| e == "rs") {
            out.push(path);
        }
    }
}

fn main() {
    let words: Vec<String> = std::env::args().collect();
    let [_, source, list, stubs, out] = &words[..] else {
        stop("usage: patch LUMO_SRC PATCHES STUBS OUT".to_string())
    };
    let (source, stubs, out) = (Path::new(source), Path::new(stubs), Path::new(out));
    let patches = parse(&read(Path::new(list)));

    let mut of_lumo = vec![];
    files(source, Path::new("src"), &mut of_lumo);
    for p in &patches {
        if !of_lumo.iter().any(|f| f == Path::new(&p.file)) {
            stop(format!("{} is not among lumo's files", p.file));
        }
    }
    for file in &of_lumo {
        let mut text = read(&source.join(file));
        for p in patches.iter().filter(|p| Path::new(&p.file) == file) {
            text = apply(text, p);
        }
        write(&out.join(file), &text);
    }

    let mut of_stubs = vec![];
    files(stubs, Path::new("src"), &mut of_stubs);
    for file in &of_stubs {
        if of_lumo.contains(file) {
            stop(format!("{} is both lumo's and a stub", file.display()));
        }
        write(&out.join(file), &read(&stubs.join(file)));
    }
    println!(
        "compare: {} files of lumo, {} replacements, {} stubs",
        of_lumo.len(),
        patches.len(),
        of_stubs.len()
    );
}
