//! The example host, the fold tool and the notes tool, built by the C compiler as their users build
//! them, and such with mistakes.

use std::fs;
use std::path::{Path, PathBuf};
use std::process::Command;

const CRATE: &str = env!("CARGO_MANIFEST_DIR");

const HOST: &str = "host.c";
const FOLD: &str = "fold.c";
const NOTES: &str = "notes.c";

/// An edit of a source, what stands there once and what stands there instead, and the steps or
/// bytes of a call with which it is a mistake.
pub struct Edit {
    pub name: &'static str,
    pub budget: u32,
    pub old: &'static str,
    pub new: &'static str,
}

/// A folder for what a test makes.
pub fn folder(name: &str) -> PathBuf {
    let folder = Path::new(env!("CARGO_TARGET_TMPDIR")).join(name);
    fs::create_dir_all(&folder).expect("the folder can be made");
    folder
}

/// Builds the host in the folder, as it stands.
pub fn host(folder: &Path) -> PathBuf {
    compile(folder, &source(HOST), &[])
}

/// Builds it with so many steps a call, edited or not.
pub fn host_with(folder: &Path, budget: u32, edit: Option<&Edit>) -> PathBuf {
    let source = source_with(folder, HOST, edit);
    compile(folder, &source, &[&format!("-DBUDGET={budget}")])
}

/// The same with `cut.c`, by which it kills itself.
pub fn cut_host(folder: &Path, budget: u32, edit: Option<&Edit>) -> PathBuf {
    compile_with_cut(folder, &source_with(folder, HOST, edit), budget)
}

/// Builds the fold tool, as it stands.
pub fn fold_tool(folder: &Path) -> PathBuf {
    compile(folder, &source(FOLD), &[])
}

/// Builds it with `cut.c` and so many bytes a call, edited or not.
pub fn cut_fold_tool(folder: &Path, budget: u32, edit: Option<&Edit>) -> PathBuf {
    compile_with_cut(folder, &source_with(folder, FOLD, edit), budget)
}

/// Builds the notes tool, edited or not.
pub fn notes_tool(folder: &Path, edit: Option<&Edit>) -> PathBuf {
    compile(folder, &source_with(folder, NOTES, edit), &[])
}

fn source(name: &str) -> PathBuf {
    Path::new(CRATE).join("../../examples").join(name)
}

/// The source, or a copy of it with the edit.
fn source_with(folder: &Path, name: &str, edit: Option<&Edit>) -> PathBuf {
    let Some(edit) = edit else {
        return source(name);
    };
    let text = fs::read_to_string(source(name)).expect("the example can be read");
    assert_eq!(text.matches(edit.old).count(), 1, "edit {}", edit.name);
    let copy = folder.join(name);
    fs::write(&copy, text.replace(edit.old, edit.new)).expect("the copy can be written");
    copy
}

fn compile_with_cut(folder: &Path, source: &Path, budget: u32) -> PathBuf {
    let cut = Path::new(CRATE).join("tests/host/cut.c");
    let arguments = [
        &format!("-DBUDGET={budget}"),
        cut.to_str().expect("a path of text"),
        "-Wl,--wrap=pwrite,--wrap=fflush",
    ];
    compile(folder, source, &arguments)
}

/// Compiles a program, which gets the name of its source.
fn compile(folder: &Path, source: &Path, arguments: &[&str]) -> PathBuf {
    let program = folder.join(source.file_stem().expect("a source has a name"));
    let compiled = Command::new("cc")
        .args(["-std=c11", "-O2", "-Wall", "-Wextra", "-Werror", "-I"])
        .arg(Path::new(CRATE).join("../../include"))
        .arg("-o")
        .arg(&program)
        .arg(source)
        .args(arguments)
        .arg(env!("PITSKELO_ARCHIVE"))
        .output()
        .unwrap_or_else(|error| panic!("this test needs the C compiler `cc`: {error}"));
    assert!(
        compiled.status.success(),
        "cc failed ({}):\n{}",
        compiled.status,
        String::from_utf8_lossy(&compiled.stderr)
    );
    program
}
