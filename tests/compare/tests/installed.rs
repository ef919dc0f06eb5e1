//! An installed copy outside the repository: its files, programs built and run from it, how the library is found, and what the library takes of
//! a program.
use compare::documents::{numbered_rows, section};
use compare::programs::{cargo, is_there, outcome, root, run_on, said, strict};
use compare::{samples, table};
use llunareth::raw::VERSION;
use std::collections::BTreeSet;
use std::ffi::OsStr;
use std::fs;
use std::os::unix::fs::{symlink, PermissionsExt};
use std::path::{Path, PathBuf};
use std::process::{Command, Output};

/// A new folder outside the repository, which is taken away at the end.
struct Outside(PathBuf);

impl Outside {
    fn new(name: &str) -> Outside {
        let folder = std::env::temp_dir().join(format!("llunareth-{name}-{}", std::process::id()));
        fs::create_dir_all(&folder).expect("a folder");
        let folder = folder.canonicalize().expect("a folder");
        assert!(!folder.starts_with(root().canonicalize().expect("the repository")), "{} is in the repository", folder.display());
        Outside(folder)
    }

    fn join(&self, name: &str) -> PathBuf {
        self.0.join(name)
    }

    /// A program started in this folder.
    fn start(&self, program: &str, args: impl IntoIterator<Item = impl AsRef<OsStr>>) -> Output {
        Command::new(program).args(args).current_dir(&self.0).output().unwrap_or_else(|e| panic!("{program}: {e}"))
    }
}

impl Drop for Outside {
    fn drop(&mut self) {
        let _ = fs::remove_dir_all(&self.0);
    }
}

fn assert_done(output: &Output) {
    assert!(output.status.success(), "{}{}", String::from_utf8_lossy(&output.stdout), said(output));
}

/// The install script of a copy of the repository, with none of its settings in the environment.
fn install_command(repository: &Path, args: &[String]) -> Command {
    let mut command = Command::new("bash");
    command.arg(repository.join("bindings/install")).args(args);
    command.env_remove("PREFIX").env_remove("DESTDIR").env_remove("CC");
    command
}

fn install(repository: &Path, args: &[String]) -> Output {
    install_command(repository, args).output().expect("bash starts")
}

/// The argument for a copy in the folder `installed`.
fn prefix(outside: &Outside) -> String {
    format!("PREFIX={}", outside.join("installed").display())
}

fn uninstall(outside: &Outside) -> Output {
    install(&root(), &["uninstall".to_string(), prefix(outside)])
}

/// A folder with an installed copy in `installed`.
fn installed(name: &str) -> Outside {
    let outside = Outside::new(name);
    assert_done(&install(&root(), &[prefix(&outside)]));
    outside
}

/// The paths of all files under a folder.
fn files(folder: &Path) -> Vec<PathBuf> {
    let entries = fs::read_dir(folder).into_iter().flatten().map(|entry| entry.expect("an entry").path());
    entries.flat_map(|path| if path.is_dir() { files(&path) } else { vec![path] }).collect()
}

// ---- programs ----

/// A line of the file for pkg-config, with its folders put in.
fn flags_line(outside: &Outside, word: &str) -> Vec<String> {
    let text = fs::read_to_string(outside.join("installed/lib/pkgconfig/llunareth.pc")).expect("the file for pkg-config");
    let value = |name: &str, mark: &str| {
        text.lines().find_map(|line| line.strip_prefix(name)?.strip_prefix(mark)).unwrap_or_else(|| panic!("no {name}")).trim().to_string()
    };
    let put_in = |value: String, name: &str, by: &str| value.replace(&format!("${{{name}}}"), by);
    let prefix = value("prefix", "=");
    let (include, lib) = (put_in(value("includedir", "="), "prefix", &prefix), put_in(value("libdir", "="), "prefix", &prefix));
    put_in(put_in(value(word, ":"), "includedir", &include), "libdir", &lib).split(' ').map(String::from).collect()
}

/// The flags of the compiler, as pkg-config gives them where it is there.
fn flags(outside: &Outside) -> Vec<String> {
    let flags = [flags_line(outside, "Cflags"), flags_line(outside, "Libs")].concat();
    if is_there("pkg-config") {
        let mut command = Command::new("pkg-config");
        command.args(["--cflags", "--libs", "llunareth"]).env("PKG_CONFIG_PATH", outside.join("installed/lib/pkgconfig"));
        let told = outcome(command.output().expect("pkg-config starts")).0;
        assert_eq!(told.split_whitespace().collect::<Vec<_>>(), flags);
    }
    assert_eq!(flags_line(outside, "Version"), [VERSION.to_string()]);
    flags
}

/// An installed example built in the folder by a compiler and these flags.
fn example(outside: &Outside, (compiler, standard): (&str, &str), source: &str, flags: &[String], program: &str) -> PathBuf {
    let source = outside.join("installed/share/doc/llunareth/examples").join(source);
    let output = strict(compiler, standard).arg(source).args(flags).args(["-o", program]).current_dir(&outside.0).output();
    assert_done(&output.expect("the compiler starts"));
    outside.join(program)
}

/// A crate in the folder that depends on the installed package, with the installed example as its program.
fn outside_crate(outside: &Outside) -> PathBuf {
    let folder = outside.join("own");
    fs::create_dir_all(folder.join("src")).expect("a folder");
    let package = outside.join("installed/share/llunareth/rust");
    let manifest = format!("[package]\nname = \"own\"\nedition = \"2021\"\n\n[dependencies]\nllunareth = {{ path = {package:?} }}\n");
    fs::write(folder.join("Cargo.toml"), manifest).expect("written");
    fs::copy(package.join("examples/members.rs"), folder.join("src/main.rs")).expect("copied");
    folder.join("Cargo.toml")
}

/// The crate's program, with the library's folder told or not.
fn in_rust(outside: &Outside, told: Option<&Path>) -> PathBuf {
    let mut command = cargo("build", &outside_crate(outside), &outside.join("built"));
    assert_done(&command.envs(told.map(|folder| ("LLUNARETH_LIB_DIR", folder))).current_dir(&outside.0).output().expect("cargo starts"));
    outside.join("built/debug/own")
}

/// Panics unless a program prints the tables of the samples.
fn assert_tables(program: &Path) {
    for name in samples::names(".survey") {
        let path = samples::folder().join(format!("{name}.survey"));
        let (expected, status) = table::printed(&fs::read(&path).expect("a sample"));
        assert_eq!(run_on(program, &path), (expected, Some(status)), "{} on {name}", program.display());
    }
}

#[test]
fn the_examples_in_c_and_cpp() {
    let outside = installed("c");
    let flags = flags(&outside);
    assert_tables(&example(&outside, ("gcc", "-std=c99"), "members.c", &flags, "members_c"));
    if is_there("g++") {
        assert_tables(&example(&outside, ("g++", "-std=c++11"), "members.cpp", &flags, "members_cpp"));
    }
}

/// `verdict` and `details` built from their installed sources print what the installed programs print.
#[test]
fn the_programs_from_their_installed_sources() {
    let outside = installed("sources");
    let flags = flags(&outside);
    for name in ["verdict", "details"] {
        let built = example(&outside, ("gcc", "-std=c99"), &format!("{name}.c"), &flags, name);
        for sample in samples::names(".survey") {
            let path = samples::folder().join(format!("{sample}.survey"));
            assert_eq!(run_on(&built, &path), run_on(&outside.join("installed/bin").join(name), &path), "{name} on {sample}");
        }
    }
}

#[test]
fn the_example_in_rust() {
    let outside = installed("rust");
    assert_tables(&in_rust(&outside, None));
    let mut package = cargo("build", &outside.join("installed/share/llunareth/rust/Cargo.toml"), &outside.join("built"));
    assert_done(&package.args(["--example", "members"]).output().expect("cargo starts"));
    assert_tables(&outside.join("built/debug/examples/members"));
    fs::create_dir(outside.join("elsewhere")).expect("a folder");
    fs::rename(outside.join("installed/lib/libllunareth.a"), outside.join("elsewhere/libllunareth.a")).expect("moved");
    let wrong = cargo("build", &outside_crate(&outside), &outside.join("built")).output().expect("cargo starts");
    assert!(!wrong.status.success() && said(&wrong).contains("The proved library is not there."), "{}", said(&wrong));
    assert_tables(&in_rust(&outside, Some(&outside.join("elsewhere"))));
}

/// How many tests passed, by what `cargo test` printed.
fn passed(printed: &str) -> u32 {
    let number = |line: &str| line.strip_prefix("test result: ok. ")?.split_once(" passed")?.0.parse::<u32>().ok();
    printed.lines().filter_map(number).sum()
}

/// The package's own tests, those of its documentation with them, which read samples.
#[test]
fn the_tests_of_the_installed_package() {
    let outside = installed("package-tests");
    let output = cargo("test", &outside.join("installed/share/llunareth/rust/Cargo.toml"), &outside.join("built")).output();
    let output = output.expect("cargo starts");
    assert_done(&output);
    let (printed, _) = outcome(output);
    assert!(passed(&printed) > 12, "{printed}");
}

#[test]
fn the_installed_programs() {
    let outside = installed("programs");
    for sample in samples::all() {
        let path = samples::folder().join(format!("{}.survey", sample.name));
        let sheet = String::from_utf8(sample.sheet).expect("text");
        assert_eq!(run_on(&outside.join("installed/bin/determine"), &path), (sheet.clone(), Some(0)), "{}", sample.name);
        let (line, status) = run_on(&outside.join("installed/bin/verdict"), &path);
        let (begins, ended) = match (sheet.starts_with('E'), sheet.ends_with(" 1\n")) {
            (true, _) => ("refused: ", 1),
            (false, true) => ("Risky: ", 0),
            (false, false) => ("not Risky\n", 0),
        };
        assert!(line.starts_with(begins) && status == Some(ended), "{}: {line}", sample.name);
    }
}

// ---- the script ----

#[test]
fn installed_under_destdir_and_taken_away() {
    let outside = Outside::new("destdir");
    let args = [format!("DESTDIR={}", outside.join("staged").display()), "PREFIX=/usr/llunareth".to_string()];
    assert_done(&install(&root(), &args));
    let copy = outside.join("staged/usr/llunareth");
    let list = fs::read_to_string(copy.join("share/llunareth/installed")).expect("the list");
    let own = copy.join("share/llunareth/installed");
    let listed: BTreeSet<PathBuf> = list.lines().map(|line| copy.join(line.trim_start_matches("./"))).chain([own]).collect();
    assert_eq!(files(&copy).into_iter().collect::<BTreeSet<_>>(), listed);
    for name in ["lib/libllunareth.a", "include/llunareth.h", "bin/determine", "bin/verdict", "bin/details", "share/doc/llunareth/CALLS.md"] {
        assert!(copy.join(name).is_file(), "{name}");
    }
    let text = fs::read_to_string(copy.join("lib/pkgconfig/llunareth.pc")).expect("the file for pkg-config");
    assert!(text.starts_with("prefix=/usr/llunareth\n"), "{text}");
    fs::write(copy.join("lib/another"), "").expect("written");
    assert_done(&install(&root(), &[&["uninstall".to_string()], &args[..]].concat()));
    assert_eq!(files(&copy), [copy.join("lib/another")]);
    assert!(!copy.join("share/llunareth").exists() && !copy.join("share/doc/llunareth").exists());
    assert!(!install(&root(), &[&["uninstall".to_string()], &args[..]].concat()).status.success());
}

/// A folder under PREFIX that is a link stays one: the files go to where it leads.
#[test]
fn through_folders_that_are_links() {
    let outside = Outside::new("links-to-folders");
    fs::create_dir_all(outside.join("installed/lib64")).expect("a folder");
    fs::create_dir_all(outside.join("documents")).expect("a folder");
    fs::create_dir_all(outside.join("installed/share")).expect("a folder");
    symlink("lib64", outside.join("installed/lib")).expect("a link");
    symlink(outside.join("documents"), outside.join("installed/share/doc")).expect("a link");
    assert_done(&install(&root(), &[prefix(&outside)]));
    for name in ["installed/lib64/libllunareth.a", "installed/lib64/pkgconfig/llunareth.pc", "documents/llunareth/CALLS.md"] {
        assert!(outside.join(name).is_file(), "{name}");
    }
    assert!(outside.join("installed/lib").is_symlink() && outside.join("installed/share/doc").is_symlink());
    assert_done(&uninstall(&outside));
    assert_eq!(files(&outside.0), [] as [PathBuf; 0]);
}

/// Where something is in the way, the files that were put before it can be taken away.
#[test]
fn put_half_way_and_taken_away() {
    let outside = Outside::new("half-way");
    fs::create_dir(outside.join("installed")).expect("a folder");
    fs::write(outside.join("installed/lib"), "").expect("written");
    assert!(!install(&root(), &[prefix(&outside)]).status.success());
    assert!(outside.join("installed/bin/determine").is_file());
    assert_done(&uninstall(&outside));
    assert_eq!(files(&outside.0), [outside.join("installed/lib")]);
}

/// A file of another version that this one lacks goes; what no version has put stays.
#[test]
fn over_another_version() {
    let outside = installed("another-version");
    let (list, own) = (outside.join("installed/share/llunareth/installed"), outside.join("installed/share/doc/llunareth/own"));
    let old = outside.join("installed/share/doc/llunareth/old/OLD.md");
    let listed = fs::read_to_string(&list).expect("the list");
    fs::create_dir(old.parent().expect("a folder")).expect("a folder");
    [&old, &own].iter().for_each(|path| fs::write(path, "").expect("written"));
    fs::write(&list, format!("./share/doc/llunareth/old/OLD.md\n{listed}")).expect("written");
    assert_done(&install(&root(), &[prefix(&outside)]));
    assert_eq!(fs::read_to_string(&list).expect("the list"), listed);
    assert!(!old.exists() && own.exists());
    assert_eq!(files(&outside.join("installed")).len(), listed.lines().count() + 2);
    assert_done(&uninstall(&outside));
    assert_eq!(files(&outside.0), [own]);
    assert!(!old.parent().expect("a folder").exists());
}

/// Others can read the files and start the programs, also where new files are for their owner alone.
#[test]
fn under_a_umask_that_keeps_others_out() {
    let outside = Outside::new("umask");
    let words = format!("umask 077; unset CC; exec bash bindings/install DESTDIR= {}", prefix(&outside));
    assert_done(&Command::new("bash").args(["-c", &words]).current_dir(root()).output().expect("bash starts"));
    let mode = |path: &Path| fs::metadata(path).expect("a file").permissions().mode() & 0o777;
    for path in files(&outside.join("installed")) {
        let folder = path.parent().expect("a folder");
        assert_eq!(mode(&path), if folder.ends_with("bin") { 0o755 } else { 0o644 }, "{}", path.display());
        assert_eq!(mode(folder), 0o755, "{}", folder.display());
    }
}

#[test]
fn a_prefix_that_a_file_for_pkg_config_cannot_have() {
    let outside = Outside::new("prefix");
    for name in ["pre fix", "pre\tfix", "pre\"fix", "pre'fix", "pre\\fix", "pre$fix", "pre#fix"] {
        let output = install(&root(), &[format!("PREFIX={}", outside.join(name).display())]);
        assert!(output.status.code() == Some(1) && said(&output).contains("PREFIX has a blank"), "{name}: {}", said(&output));
        assert!(!outside.join(name).exists(), "{name}");
    }
}

/// A blank and a quote in DESTDIR and in the folder for temporary files, which is left empty.
#[test]
fn blanks_and_quotes_in_other_folders() {
    let outside = Outside::new("quotes");
    let (temporary, staged) = (outside.join("one's own"), outside.join("the staged 'copy'"));
    fs::create_dir(&temporary).expect("a folder");
    let args = [format!("DESTDIR={}", staged.display()), "PREFIX=/opt".to_string()];
    assert_done(&install_command(&root(), &args).env("TMPDIR", &temporary).output().expect("bash starts"));
    assert!(staged.join("opt/bin/verdict").is_file());
    assert_eq!(fs::read_dir(&temporary).expect("the folder").count(), 0);
}

#[test]
fn a_compiler_with_its_flags() {
    let outside = Outside::new("compiler");
    let with = |compiler: &str| install_command(&root(), &[prefix(&outside)]).env("CC", compiler).output().expect("bash starts");
    assert!(!with("gcc -std=c99 -no-such-flag").status.success());
    assert!(!outside.join("installed").exists());
    assert_done(&with("gcc -m64"));
    assert!(outside.join("installed/bin/verdict").is_file());
}

/// A repository whose install script has the folder `usual` of `outside` in place of /usr/local.
fn with_another_default(outside: &Outside) -> PathBuf {
    let repository = outside.join("repository");
    fs::create_dir_all(repository.join("bindings")).expect("a folder");
    for name in ["crates", "docs", "page", "samples", "bindings/c", "bindings/rust"] {
        symlink(root().join(name), repository.join(name)).expect("a link");
    }
    let script = fs::read_to_string(root().join("bindings/install")).expect("the script");
    let script = script.replace("/usr/local", &outside.join("usual").display().to_string());
    fs::write(repository.join("bindings/install"), script).expect("written");
    repository
}

/// PREFIX and DESTDIR of the environment hold where the arguments have no others.
#[test]
fn settings_in_the_environment() {
    let outside = Outside::new("environment");
    let (repository, staged) = (with_another_default(&outside), outside.join("staged"));
    let with = |args: &[&str], prefix: &str, destdir: &Path| {
        let args: Vec<String> = args.iter().map(|&arg| arg.into()).collect();
        install_command(&repository, &args).env("DESTDIR", destdir).env("PREFIX", prefix).output().expect("bash starts")
    };
    assert_done(&with(&[], "/one", &staged));
    assert_done(&with(&["PREFIX=/two"], "/three", &staged));
    assert!(["one", "two"].iter().all(|name| staged.join(name).join("bin/verdict").is_file()) && !staged.join("three").exists());
    assert_done(&with(&["uninstall"], "/one", &staged));
    assert_done(&with(&["uninstall", "PREFIX=/two"], "/three", &staged));
    assert_eq!(files(&staged), [] as [PathBuf; 0]);
    assert!(!with(&[], "/one", Path::new("staged")).status.success());
    assert!(!outside.join("usual").exists());
}

/// Where nothing is said, the default is PREFIX.
#[test]
fn without_settings() {
    let outside = Outside::new("default");
    let repository = with_another_default(&outside);
    assert_done(&install(&repository, &[]));
    assert!(outside.join("usual/bin/verdict").is_file());
    assert_done(&install(&repository, &["uninstall".to_string()]));
    assert_eq!(files(&outside.join("usual")), [] as [PathBuf; 0]);
}

/// The targets of the links of a page, without those within it.
fn links(page: &str) -> Vec<&str> {
    page.split("](").skip(1).filter_map(|rest| rest.split([')', '#']).next()).filter(|target| !target.is_empty()).collect()
}

#[test]
fn the_links_of_the_installed_pages() {
    let outside = installed("links");
    let folder = outside.join("installed/share/doc/llunareth");
    let texts: Vec<String> = pages(&folder).iter().map(|path| fs::read_to_string(path).expect("a page")).collect();
    assert_eq!(texts.len(), 6);
    let targets: Vec<&str> = texts.iter().flat_map(|text| links(text)).collect();
    assert!(["FORMAT.md", "PAGE.md", "spectrum.svg", "page.png"].iter().all(|target| targets.contains(target)));
    for target in targets {
        assert!(folder.join(target).is_file(), "{target}");
    }
}

fn pages(folder: &Path) -> Vec<PathBuf> {
    files(folder).into_iter().filter(|path| path.extension() == Some(OsStr::new("md"))).collect()
}

/// Each installed page has a second paragraph, which says where a file is that the copy lacks; the rest is the repository's page, less its links.
#[test]
fn the_installed_pages_say_where_other_files_are() {
    let outside = installed("pages");
    for path in pages(&outside.join("installed/share/doc/llunareth")) {
        let text = fs::read_to_string(&path).expect("a page");
        let own = fs::read_to_string(root().join("docs").join(path.file_name().expect("a name"))).expect("a page");
        let (title, rest) = text.split_once("\n\n").expect("a title");
        let (note, rest) = rest.split_once("\n").expect("a second paragraph");
        assert!(note.starts_with("This is an installed copy: a file that is named and is not in it is in the repository."), "{note}");
        assert!(own.starts_with(&format!("{title}\n")));
        assert_eq!(rest.lines().count(), own.lines().count() - 1, "{}", path.display());
    }
}

/// A copy of the bindings without what is built.
fn unbuilt(name: &str) -> Outside {
    let outside = Outside::new(name);
    for path in files(&root().join("bindings")) {
        let to = outside.join("bindings").join(path.strip_prefix(root().join("bindings")).expect("a path in it"));
        fs::create_dir_all(to.parent().expect("a folder")).expect("a folder");
        fs::copy(path, to).expect("copied");
    }
    outside
}

#[test]
fn what_is_not_built_is_named_with_its_command() {
    let outside = unbuilt("unbuilt");
    let output = install(&outside.0, &[format!("PREFIX={}", outside.join("installed").display())]);
    let told = "install: no crates/exports/out/libexports.a; this makes it: (cd crates/exports && rt lib)\n\
                install: no crates/determine/out/determine; this makes it: (cd crates/determine && rt run < ../../samples/plain-block.survey)\n";
    assert_eq!((said(&output).as_str(), output.status.code()), (told, Some(1)));
    assert!(!outside.join("installed").exists());
    let misspelt = install(&root(), &["prefix=/opt".to_string()]);
    let usage = "install: usage: bindings/install [uninstall] [PREFIX=/usr/local] [DESTDIR=]\n";
    assert_eq!((said(&misspelt).as_str(), misspelt.status.code()), (usage, Some(1)));
    assert!(!install(&root(), &["PREFIX=installed".to_string()]).status.success());
}

#[test]
fn the_rust_package_names_the_command_for_a_library_that_is_not_there() {
    let outside = unbuilt("package");
    let manifest = outside.join("bindings/rust/Cargo.toml");
    let alone = fs::read_to_string(&manifest).expect("a manifest").replace("workspace = \"../../tests\"\n", "");
    fs::write(&manifest, alone).expect("written");
    let (repository, package, elsewhere) = (outside.join("crates/exports/out/libexports.a"), outside.join("bindings/rust"), outside.join("empty"));
    let told = [None, Some(Path::new("")), Some(Path::new("near")), Some(&elsewhere)];
    let looked = [repository.clone(), repository, package.join("near/libllunareth.a"), elsewhere.join("libllunareth.a")];
    for (told, looked) in told.into_iter().zip(looked) {
        let mut command = cargo("build", &manifest, &outside.join("built"));
        let output = command.envs(told.map(|folder| ("LLUNARETH_LIB_DIR", folder))).output().expect("cargo starts");
        let looked = looked.display().to_string();
        assert!(!output.status.success());
        for words in ["The proved library is not there.", "(cd crates/exports && rt lib)", "LLUNARETH_LIB_DIR", &looked] {
            assert!(said(&output).replace("bindings/rust/../../", "").contains(words), "{words}: {}", said(&output));
        }
    }
}

// ---- what the library takes of a program ----

/// What a program of binutils prints of the installed library.
fn told_of(outside: &Outside, program: &str, args: &[&str], file: &str) -> String {
    let output = outside.start(program, args.iter().chain([&file]));
    assert_done(&output);
    outcome(output).0
}

const CALLS: [&str; 13] = [
    "llunareth_determine",
    "llunareth_header_fault",
    "llunareth_judge_building",
    "llunareth_judge_member",
    "llunareth_judge_storey",
    "llunareth_member_fault",
    "llunareth_read",
    "llunareth_report",
    "llunareth_site_coefficients",
    "llunareth_spectrum",
    "llunareth_storey_fault",
    "llunareth_version",
    "llunareth_write",
];

/// The last words of lines, each of a symbol.
fn symbols(lines: &str) -> Vec<&str> {
    lines.lines().filter_map(|line| line.split_whitespace().last()).filter(|word| !word.ends_with(".o:")).collect()
}

#[test]
fn the_library_defines_the_calls_and_needs_two_of_the_c_library() {
    let outside = installed("symbols");
    let library = "installed/lib/libllunareth.a";
    assert_eq!(symbols(&told_of(&outside, "nm", &["--extern-only", "--defined-only"], library)), CALLS);
    assert_eq!(symbols(&told_of(&outside, "nm", &["--undefined-only"], library)), ["memcpy", "memset"]);
}

/// No section of the library that is loaded can be written to: it keeps nothing between calls.
#[test]
fn the_library_has_no_data_that_changes() {
    let outside = installed("sections");
    let sections = told_of(&outside, "objdump", &["--section-headers", "--wide"], "installed/lib/libllunareth.a");
    let loaded: Vec<&str> = sections.lines().filter(|line| line.contains("ALLOC") && !line.contains(" 00000000 ")).collect();
    assert!(loaded.len() > 20, "{sections}");
    for line in loaded {
        assert!(line.contains("READONLY"), "{line}");
    }
}

/// The commands of docs/CALLS.md for a program and for a shared library, with the folder of this copy in place of theirs.
fn commands(outside: &Outside) -> Vec<String> {
    let text = fs::read_to_string(outside.join("installed/share/doc/llunareth/CALLS.md")).expect("the page");
    let prefix = outside.join("installed").display().to_string();
    text.lines().filter_map(|line| Some(line.strip_prefix("    gcc ")?.replace("/usr/local", &prefix))).collect()
}

/// Runs the arguments of gcc by bash in the folder.
fn gcc(outside: &Outside, arguments: &str) {
    let mut command = Command::new("bash");
    command.args(["-c", &format!("gcc {arguments}")]).env("PKG_CONFIG_PATH", outside.join("installed/lib/pkgconfig"));
    assert_done(&command.current_dir(&outside.0).output().expect("bash starts"));
}

#[test]
fn the_commands_of_the_page() {
    let outside = installed("commands");
    fs::copy(outside.join("installed/share/doc/llunareth/examples/members.c"), outside.join("members.c")).expect("copied");
    fs::copy(outside.join("installed/lib/libllunareth.a"), outside.join("libllunareth.a")).expect("copied");
    let commands = commands(&outside);
    let [by_pkg_config, by_name, shared] = &commands[..] else { panic!("three commands: {commands:?}") };
    if is_there("pkg-config") {
        gcc(&outside, by_pkg_config);
        assert_tables(&outside.join("members"));
    }
    gcc(&outside, by_name);
    assert_tables(&outside.join("members"));
    gcc(&outside, shared);
    let library = format!("libllunareth.so.{VERSION}");
    assert_eq!(symbols(&told_of(&outside, "nm", &["--dynamic", "--extern-only", "--defined-only"], &library)), CALLS);
    let flags = ["-Iinstalled/include", &library, "-Wl,-rpath,$ORIGIN"].map(String::from);
    let program = example(&outside, ("gcc", "-std=c99"), "members.c", &flags, "members_shared");
    assert!(told_of(&outside, "objdump", &["--private-headers"], "members_shared").contains(&library));
    assert_tables(&program);
}

/// Bytes at most, as docs/CALLS.md states them.
#[test]
fn sizes() {
    let outside = installed("sizes");
    let stated = section("CALLS.md", "## Installing and linking");
    let rows = numbered_rows(&stated);
    assert_eq!(rows.iter().map(|(names, _)| names[0]).collect::<Vec<_>>(), ["libllunareth.a", "determine", "verdict", "details"]);
    for (names, most) in rows {
        let (name, folder) = (names[0], if names[0].ends_with(".a") { "lib" } else { "bin" });
        let length = fs::metadata(outside.join("installed").join(folder).join(name)).expect("a file").len() as usize;
        assert!(0 < length && length <= most, "{name}: {length} bytes");
    }
}
