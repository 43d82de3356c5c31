//! The transcripts in the documents: every command line there is run, and says what stands below it.

use crate::common::{ran, scratch};
use std::path::Path;
use std::process::Command;
use std::{env, fs};

/// A command line of a document, and the lines that follow it there.
struct Step {
    line: String,
    says: String,
}

/// The steps of the fenced blocks, in their order.
fn steps(document: &str) -> Vec<Step> {
    let mut steps: Vec<Step> = Vec::new();
    // Text and fenced blocks take turns.
    for block in document.split("```").skip(1).step_by(2) {
        let mut is_step = false;
        for line in block.lines().skip(1) {
            if let Some(line) = line.strip_prefix("$ ") {
                steps.push(Step { line: line.to_string(), says: String::new() });
                is_step = true;
            } else if is_step {
                let step = steps.last_mut().expect("one was just pushed");
                step.says += &format!("{line}\n");
            }
        }
    }
    steps
}

/// Runs a document's steps one after another in a folder that has the samples.
fn holds(name: &str, least: usize) {
    let root = Path::new(env!("CARGO_MANIFEST_DIR")).join("../..");
    let document = fs::read_to_string(root.join(name)).expect(name);
    let folder = scratch(&name.replace('/', "_"));
    std::os::unix::fs::symlink(root.join("samples"), folder.join("samples")).expect("a link");
    let program = Path::new(env!("CARGO_BIN_EXE_hfs-btree"));
    let mut places = vec![program.parent().expect("it lies in a folder").to_path_buf()];
    places.extend(env::split_paths(&env::var_os("PATH").expect("there is a PATH")));
    let path = env::join_paths(places).expect("no place has a colon");
    let steps = steps(&document);
    assert!(steps.len() >= least, "{name} has {} steps", steps.len());
    for Step { line, says } in steps {
        let mut shell = Command::new("bash");
        shell.args(["-c", &format!("{{ {line}\n}} 2>&1")]).current_dir(&folder).env("PATH", &path);
        assert_eq!(ran(shell.output().expect("a shell starts")).out, says, "{name}: {line}");
    }
}

#[test]
fn the_commands() {
    holds("docs/COMMANDS.md", 20);
}

#[test]
fn the_readme() {
    holds("README.md", 5);
}
