//! Programs in C and C++ over the header and the proved library, and what a run of one gives.
use std::fs::{self, File};
use std::io::Write;
use std::path::{Path, PathBuf};
use std::process::{Command, Output, Stdio};

/// The folder of the repository.
pub fn root() -> PathBuf {
    Path::new(env!("CARGO_MANIFEST_DIR")).join("../..")
}

/// The proved library.
pub fn library() -> PathBuf {
    root().join("crates/exports/out/libexports.a")
}

/// A compiler that takes every warning for an error.
pub fn strict(name: &str, standard: &str) -> Command {
    let mut command = Command::new(name);
    command.args([standard, "-Wall", "-Wextra", "-Wpedantic", "-Werror"]);
    command
}

/// The same, which finds the header of the repository.
pub fn compiler(name: &str, standard: &str) -> Command {
    let mut command = strict(name, standard);
    command.arg("-I").arg(root().join("bindings/c"));
    command
}

/// What a run said on standard error.
pub fn said(output: &Output) -> String {
    String::from_utf8_lossy(&output.stderr).into_owned()
}

/// What a run printed, and its exit status.
pub fn outcome(output: Output) -> (String, Option<i32>) {
    (String::from_utf8(output.stdout).expect("text"), output.status.code())
}

/// Builds a program of one file of the repository over the header and the proved library.
pub fn build(compiler: &mut Command, source: &str, program: PathBuf) -> PathBuf {
    let output = compiler.args([root().join(source), library()]).arg("-o").arg(&program).output().expect("the compiler starts");
    assert!(output.status.success(), "{}", said(&output));
    program
}

/// What the compiler says of a text.
pub fn compile_text(compiler: &mut Command, language: &str, text: &str) -> Output {
    compiler.args(["-fsyntax-only", "-x", language, "-"]).stdin(Stdio::piped()).stderr(Stdio::piped());
    let mut child = compiler.spawn().expect("the compiler starts");
    child.stdin.take().expect("a pipe").write_all(text.as_bytes()).expect("the text is read");
    child.wait_with_output().expect("the compiler ends")
}

/// What a program with its arguments gives where standard input is a terminal, at which this is typed and then Ctrl-D. `script` of util-linux makes
/// the terminal; standard output and standard error go by files in a folder.
pub fn run_at_a_terminal(program: &Path, arguments: &str, typed: &[u8], folder: &Path) -> Output {
    let name = program.file_name().expect("a name").display();
    let [output, error] = ["output", "error"].map(|stream| folder.join(format!("{name}-terminal-{stream}")));
    let command = format!("'{}' {arguments} > '{}' 2> '{}'", program.display(), output.display(), error.display());
    let mut child = Command::new("script")
        .args(["--quiet", "--return", "--command", &command, "/dev/null"])
        .stdin(Stdio::piped())
        .stdout(Stdio::null())
        .spawn()
        .expect("script starts");
    child.stdin.take().expect("a pipe").write_all(typed).expect("typed");
    let status = child.wait().expect("script ends");
    Output { status, stdout: fs::read(output).expect("a file"), stderr: fs::read(error).expect("a file") }
}

/// Whether a program is on the machine.
pub fn is_there(program: &str) -> bool {
    Command::new(program).arg("--version").output().is_ok()
}

/// Compiler, standard and language of the header, as far as the compilers are there.
pub fn languages() -> Vec<(&'static str, &'static str, &'static str)> {
    let all = [("gcc", "-std=c99", "c"), ("gcc", "-std=c11", "c"), ("g++", "-std=c++11", "c++")];
    all.into_iter().filter(|(name, ..)| *name == "gcc" || is_there(name)).collect()
}

/// `cargo` of the running tests, without the network, with a folder of its own for what it builds.
pub fn cargo(action: &str, manifest: &Path, built: &Path) -> Command {
    let mut command = Command::new(env!("CARGO"));
    command.args([action, "--offline", "--manifest-path"]).arg(manifest).env("CARGO_TARGET_DIR", built).env_remove("LLUNARETH_LIB_DIR");
    command
}

/// What a program prints for a file on its standard input, and its exit status.
pub fn run_on(program: &Path, file: &Path) -> (String, Option<i32>) {
    let input = File::open(file).unwrap_or_else(|e| panic!("{}: {e}", file.display()));
    outcome(Command::new(program).stdin(input).output().unwrap_or_else(|e| panic!("{}: {e}", program.display())))
}
