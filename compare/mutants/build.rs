//! Makes a wrong copy of the model's lowering, or of its RUN, for each edit in
//! edits.txt.

use std::fmt::Write;
use std::path::{Path, PathBuf};
use std::{env, fs};

/// The file of the model's RUN; any other is one of its lowering.
const RUN: &str = "run.rs";

/// An edit: some whole lines of a file, and what they become.
struct Edit {
    label: String,
    file: String,
    old: Vec<String>,
    new: Vec<String>,
}

/// `@ label`, the file's name, then lines to find (-) and to put there (+).
fn edits(text: &str) -> Vec<Edit> {
    let mut edits: Vec<Edit> = Vec::new();
    for line in text.lines().filter(|line| !line.is_empty()) {
        if let Some(label) = line.strip_prefix("@ ") {
            edits.push(Edit {
                label: label.to_string(),
                file: String::new(),
                old: Vec::new(),
                new: Vec::new(),
            });
            continue;
        }
        let edit = edits.last_mut().expect("an edit begins with its label");
        match line.split_once(' ') {
            Some(("-", old)) => edit.old.push(old.trim().to_string()),
            Some(("+", new)) => edit.new.push(new.trim().to_string()),
            _ => edit.file = line.to_string(),
        }
    }
    edits
}

/// The text with the edit made: its lines must stand there once.
fn edited(text: &str, edit: &Edit) -> String {
    let lines: Vec<&str> = text.lines().collect();
    let stands = |at: &usize| {
        let here = lines.iter().skip(*at).map(|line| line.trim());
        here.take(edit.old.len())
            .eq(edit.old.iter().map(String::as_str))
    };
    let places: Vec<usize> = (0..lines.len()).filter(stands).collect();
    assert!(
        places.len() == 1,
        "{}: its lines stand {} times in {}",
        edit.label,
        places.len(),
        edit.file
    );
    let mut all: Vec<&str> = lines[..places[0]].to_vec();
    all.extend(edit.new.iter().map(String::as_str));
    all.extend(&lines[places[0] + edit.old.len()..]);
    all.join("\n")
}

/// Copies a file of the model into the folder `to`, with the edit made if it is
/// the edit's: whether it was.
fn copy(file: &Path, to: &Path, edit: &Edit) -> bool {
    let name = file.file_name().expect("its name");
    let text = fs::read_to_string(file).expect("text");
    let here = name.to_str() == Some(&edit.file);
    let text = if here { edited(&text, edit) } else { text };
    fs::write(to.join(name), text).expect("the copy");
    here
}

/// The files that an edit's copy is made of.
fn files(model: &Path, edit: &Edit) -> Vec<PathBuf> {
    if edit.file == RUN {
        return vec![model.join(RUN)];
    }
    let folder = fs::read_dir(model.join("lower")).expect("the model's lowering");
    folder
        .map(|entry| entry.expect("a file of it").path())
        .collect()
}

fn main() {
    let here = PathBuf::from(env::var("CARGO_MANIFEST_DIR").expect("cargo sets it"));
    let out = PathBuf::from(env::var("OUT_DIR").expect("cargo sets it"));
    let model = here.join("../model/src");
    println!("cargo:rerun-if-changed=edits.txt");
    println!("cargo:rerun-if-changed={}", model.display());
    let (mut modules, mut lowerings, mut runs) = (String::new(), String::new(), String::new());
    let text = fs::read_to_string(here.join("edits.txt")).expect("edits.txt");
    for (number, edit) in edits(&text).iter().enumerate() {
        let to = out.join(format!("m{number}"));
        fs::create_dir_all(&to).expect("a folder for the copy");
        let copied = files(&model, edit)
            .iter()
            .filter(|file| copy(file, &to, edit))
            .count();
        assert!(copied == 1, "{}: no file {}", edit.label, edit.file);
        let (list, made, path) = match edit.file == RUN {
            true => (&mut runs, "wrong_run", to.join(RUN)),
            false => (&mut lowerings, "wrong", to.join("mod.rs")),
        };
        writeln!(
            modules,
            "#[path = {path:?}]\n#[allow(unused, clippy::all)]\nmod m{number};"
        )
        .expect("text");
        writeln!(list, "    {made}!({:?}, m{number}),", edit.label).expect("text");
    }
    let lists = format!(
        "pub const LOWERINGS: &[Mutant<Lower>] = &[\n{lowerings}];\n\
         pub const RUNS: &[Mutant<Run>] = &[\n{runs}];\n"
    );
    fs::write(out.join("mutants.rs"), modules + &lists).expect("the lists of them");
}
