//! The documents show what `cim` prints: in their code, lines behind `$` are run, and have to print what stands below.

use std::fs;
use std::path::{Path, PathBuf};
use std::process::Command;

const ROOT: &str = concat!(env!("CARGO_MANIFEST_DIR"), "/../..");

/// A command of a document, and what it is said to print.
struct Step {
    command: String,
    printed: String,
}

/// The commands of a document: in its code between fences, each line that begins with `$` and the lines below it.
fn steps(document: &str) -> Vec<Step> {
    let mut steps: Vec<Step> = Vec::new();
    let (mut code, mut shown) = (false, false);
    for line in document.lines() {
        if line.starts_with("```") {
            (code, shown) = (!code, false);
        } else if let (true, Some(command)) = (code, line.strip_prefix("$ ")) {
            steps.push(Step { command: command.to_string(), printed: String::new() });
            shown = true;
        } else if let (true, Some(step)) = (shown, steps.last_mut()) {
            step.printed += line;
            step.printed += "\n";
        }
    }
    steps
}

/// A folder with the samples in it, where a document's commands are run one after the other.
fn folder(name: &str) -> PathBuf {
    let folder = Path::new(env!("CARGO_TARGET_TMPDIR")).join("documents").join(name);
    let _ = fs::remove_dir_all(&folder);
    fs::create_dir_all(folder.join("samples")).unwrap();
    for sample in fs::read_dir(Path::new(ROOT).join("samples")).unwrap() {
        let sample = sample.unwrap();
        fs::copy(sample.path(), folder.join("samples").join(sample.file_name())).unwrap();
    }
    folder
}

/// Runs a document's commands, and answers how many there were.
fn follow(path: &Path) -> usize {
    let name = path.file_name().unwrap().to_str().unwrap();
    let steps = steps(&fs::read_to_string(path).unwrap());
    let at = folder(name);
    let mut status = 0;
    for Step { command, printed } in &steps {
        if command == "echo $?" {
            assert_eq!(*printed, format!("{status}\n"), "{name}: the status");
            continue;
        }
        // The library is made, and the command built, when this runs.
        let built = command.replace("tools/library && ", "");
        let built = built.replace("cargo cim", env!("CARGO_BIN_EXE_cim"));
        let output = Command::new("sh")
            .args(["-c", &format!("exec 2>&1; {built}")])
            .current_dir(&at)
            .output()
            .unwrap();
        assert_eq!(String::from_utf8_lossy(&output.stdout), *printed, "{name}: {command}");
        status = output.status.code().unwrap();
    }
    steps.len()
}

#[test]
fn commands_print_what_the_documents_show() {
    let mut documents = vec![Path::new(ROOT).join("README.md")];
    for folder in ["docs", "docs/landings"] {
        let entries = fs::read_dir(Path::new(ROOT).join(folder)).unwrap();
        documents.extend(entries.map(|entry| entry.unwrap().path()));
    }
    documents.retain(|path| path.extension().is_some_and(|extension| extension == "md"));
    let commands: usize = documents.iter().map(|path| follow(path)).sum();
    assert!(commands > 10, "only {commands} commands are shown");
}
