// Writes one module for each deliberate mistake: the model with one line wrong. edits MODEL MISTAKES FOLDER.. > OUT
// The folders have the must-fail edits of our calls; each wrong program of theirs must be among the mistakes by its name. Wrong
// definitions need not be, nor what only the contract of lend or of lent_sound shuts out: the model has no lend of its own, no unsound record and no
// other region.
use std::fs::{read_dir, read_to_string};

fn main() {
    let args: Vec<String> = std::env::args().collect();
    let model = read_to_string(&args[1]).expect("the model");
    let list = read_to_string(&args[2]).expect("the mistakes");
    let mut lines = list.lines();
    let mut names = Vec::new();
    while let Some(line) = lines.next() {
        let name = line.strip_prefix("# ").expect("a mistake's name");
        let old = lines.next().and_then(|l| l.strip_prefix("old: ")).expect("old: and a part of a line");
        let new = lines.next().and_then(|l| l.strip_prefix("new:")).expect("new: and what stands instead");
        let new = new.strip_prefix(' ').unwrap_or(new);
        assert_eq!(model.matches(old).count(), 1, "the model has this not once: {old}");
        println!("#[allow(unused)]\nmod wrong{} {{\n{}}}\n", names.len(), model.replace(old, new));
        names.push(name.to_string());
    }
    let folders = args[3..].iter();
    for edit in folders.flat_map(|folder| read_dir(folder).expect("the must-fail edits")) {
        let text = read_to_string(edit.expect("an edit").path()).expect("its text");
        for program in text.split("mistake: ").skip(1) {
            let name = program.lines().next().expect("its name");
            let contract = program.lines().find_map(|l| l.strip_prefix("contract: ")).expect("its contract");
            let lends = contract.split(' ').all(|function| function.starts_with("lend") || function == "lent_sound");
            assert!(lends || name.starts_with("definition_") || names.iter().any(|n| n == name), "no mistake is named for the wrong program {name}");
        }
    }
    println!("pub fn all() -> Vec<(&'static str, Box<dyn crate::request::Side>)> {{\n    vec![");
    for (i, name) in names.iter().enumerate() {
        println!("        ({name:?}, Box::new(wrong{i}::Model::new())),");
    }
    println!("    ]\n}}");
}
