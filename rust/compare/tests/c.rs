//! The C header: programs are compiled against it by several compilers, linked with the library and run; and it is installed.

use std::collections::BTreeMap;
use std::env;
use std::ffi::OsStr;
use std::fs;
use std::io::{self, Write};
use std::path::{Path, PathBuf};
use std::process::{Command, Output};

use sofretu::Stop;

const WARNINGS: [&str; 6] = [
    "-Wall",
    "-Wextra",
    "-Wpedantic",
    "-Wconversion",
    "-Wshadow",
    "-Werror",
];

/// A compiler with the language that it is to read and its standards.
type Compiler = (&'static str, &'static str, [&'static str; 3]);

const GCC: Compiler = ("gcc", "c", ["c99", "c11", "c17"]);
const GXX: Compiler = ("g++", "c++", ["c++98", "c++11", "c++17"]);
const CLANG: Compiler = ("clang", "c", ["c99", "c11", "c17"]);
const CLANGXX: Compiler = ("clang++", "c++", ["c++98", "c++11", "c++17"]);

const EXAMPLE: &str = "examples/c/ask.c";
const HANDLES: &str = "rust/compare/tests/c/handles.c";
/// The linker gives the tests of the handles the library's version, so that they can pretend another.
const PRETEND: [&str; 1] = ["-Wl,--wrap=sofretu_version"];

fn root() -> PathBuf {
    let root = Path::new(env!("CARGO_MANIFEST_DIR")).join("../..");
    root.canonicalize().expect("the repository")
}

fn is_installed(program: &str) -> bool {
    Command::new(program).arg("--version").output().is_ok()
}

/// What was left out is said even of a test that passes, whose output by `println` is not shown.
fn left_out(what: &str) {
    writeln!(io::stdout(), "{what}").expect("standard output");
}

/// The required compilers, and those that are installed of the others.
fn compilers() -> Vec<Compiler> {
    let mut compilers = vec![GCC, GXX];
    for compiler in [CLANG, CLANGXX] {
        if is_installed(compiler.0) {
            compilers.push(compiler);
        } else {
            left_out(&format!("{} is not installed: not tried", compiler.0));
        }
    }
    compilers
}

fn header() -> String {
    fs::read_to_string(root().join("include/sofretu.h")).expect("the header")
}

/// What the header defines a name as.
fn defined(name: &str) -> String {
    let before = format!("#define {name} ");
    let header = header();
    let line = header.lines().find_map(|line| line.strip_prefix(&before));
    line.expect("a definition").trim_matches('"').to_owned()
}

/// Where a program of a test goes.
fn place(name: &str) -> PathBuf {
    Path::new(env!("CARGO_TARGET_TMPDIR")).join(name)
}

fn succeeded(ran: Output, what: &str) -> String {
    assert!(ran.status.success(), "{what}: {ran:?}");
    String::from_utf8(ran.stdout).expect("text")
}

/// Compiles a C program of the repository and returns the program's place.
fn compile(compiler: Compiler, standard: &str, name: &str, source: &str, more: &[&str]) -> PathBuf {
    let (command, language, _) = compiler;
    let program = place(name);
    let compiled = Command::new(command)
        .args(WARNINGS)
        .arg(format!("-std={standard}"))
        .args(["-Iinclude", "-x", language, source, "-x", "none"])
        .arg("target/staticlib/libsofretu.a")
        .args(more)
        .arg("-o")
        .arg(&program)
        .current_dir(root())
        .output()
        .expect("the compiler runs");
    succeeded(compiled, &format!("{command} -std={standard} {source}"));
    program
}

fn run(program: impl AsRef<OsStr>) -> String {
    let ran = Command::new(&program).output().expect("the program runs");
    succeeded(ran, &program.as_ref().to_string_lossy())
}

/// Compiles a C program as C99 by gcc, runs it, and returns what it wrote.
fn output_of(name: &str, more: &[&str]) -> String {
    let source = format!("rust/compare/tests/c/{name}.c");
    run(compile(GCC, "c99", name, &source, more))
}

/// What the example prints: document 01's four lines, where the steps of the first went, and what is kept then.
const EXAMPLE_PRINTS: &str = "\
0 0 2 700 8 5
0 0 2 700 1 5
0 0 2 811 6 7
14 0 0 0 1 8
steps of the first question:
attribute 0: 1
attribute 1: 2
attribute 2: 2
applications: 2
conditions: 1
kept:
attribute 1 of node 1: 0
attribute 0 of node 1: 0
attribute 1 of node 0: 700
attribute 2 of node 0: 700
attribute 2 of node 1: 700
attribute 1 of node 2: 811
attribute 2 of node 2: 811
attribute 0 of node 0: 65535
";

#[test]
fn example_and_handles_are_c_and_cpp_without_a_warning() {
    for compiler in compilers() {
        for standard in compiler.2 {
            let name = format!("example-{}-{standard}", compiler.0);
            let example = compile(compiler, standard, &name, EXAMPLE, &[]);
            assert_eq!(run(example), EXAMPLE_PRINTS, "{name}");
            let name = format!("handles-{}-{standard}", compiler.0);
            run(compile(compiler, standard, &name, HANDLES, &PRETEND));
            let name = format!("optimised-{name}");
            let flags = ["-O2", PRETEND[0]];
            run(compile(compiler, standard, &name, HANDLES, &flags));
        }
    }
}

#[test]
fn the_lines_in_the_header_are_a_program() {
    let header = header();
    let (comment, _) = header.split_once("*/").expect("the first comment");
    let lines = comment
        .lines()
        .filter_map(|line| line.strip_prefix(" *     "));
    let program = place("header.c");
    let source = [
        "#include <stdio.h>",
        "#include \"sheet_l.h\"",
        "#include \"sofretu.h\"",
        "int main(void) {",
        "const uint8_t *sheet_bytes = sheet_l, *question = questions_l[0].bytes;",
        "uint64_t sheet_len = sizeof sheet_l, question_len = questions_l[0].len;",
    ];
    let source = source
        .into_iter()
        .chain(lines)
        .chain(["return 0;", "}", ""]);
    fs::write(&program, source.collect::<Vec<&str>>().join("\n")).expect("a file");
    let program = program.to_str().expect("text");
    let tests = ["-Irust/compare/tests/c"];
    for (compiler, standard) in [(GCC, "c99"), (GXX, "c++11")] {
        let name = format!("header-{standard}");
        assert_eq!(
            run(compile(compiler, standard, &name, program, &tests)),
            "700\n"
        );
    }
}

#[test]
fn misuse_is_refused_and_nothing_is_written() {
    // How many refusals are tried: a test that tries none must not pass.
    assert_eq!(output_of("handles", &PRETEND), "159 calls\n");
}

#[test]
fn nothing_is_read_or_written_astray() {
    let sanitize = [
        "-g",
        "-fsanitize=address,undefined",
        "-fno-sanitize-recover=all",
        PRETEND[0],
    ];
    let probe = place("sanitizers.c");
    fs::write(&probe, "int main(void) { return 0; }\n").expect("a file");
    let sanitizers = Command::new("gcc")
        .args(&sanitize[..3])
        .arg(&probe)
        .arg("-o")
        .arg(place("sanitizers"))
        .output()
        .expect("gcc runs");
    if sanitizers.status.success() {
        run(compile(GCC, "c99", "handles-sanitized", HANDLES, &sanitize));
    } else {
        left_out("gcc has no sanitizers: the handles were not tried under them");
    }
    if is_installed("valgrind") {
        let program = compile(GCC, "c99", "handles-watched", HANDLES, &PRETEND);
        let watched = Command::new("valgrind")
            .args(["--quiet", "--error-exitcode=9"])
            .arg(program)
            .output()
            .expect("valgrind runs");
        succeeded(watched, "handles.c under valgrind");
    } else {
        left_out("valgrind is not installed: the handles were not watched");
    }
}

#[test]
fn headers_of_two_versions_do_not_mix() {
    // The header of the next version, which one of two files is compiled with.
    let other = folder("other-header");
    let version: u32 = defined("SOFRETU_VERSION").parse().expect("a number");
    let line = |version: u32| format!("#define SOFRETU_VERSION {version}\n");
    let next = header().replace(&line(version), &line(version + 1));
    assert_ne!(next, header());
    fs::write(other.join("sofretu.h"), next).expect("a file");
    let object = other.join("mixed.o");
    let compiled = Command::new("gcc")
        .args(WARNINGS)
        .args(["-std=c99", "-DOTHER_HEADER", "-c", "-I"])
        .arg(&other)
        .arg("-Irust/compare/tests/c")
        .arg("rust/compare/tests/c/mixed.c")
        .arg("-o")
        .arg(&object)
        .current_dir(root())
        .output()
        .expect("gcc runs");
    succeeded(compiled, "gcc -DOTHER_HEADER");
    let object = object.to_str().expect("text");
    assert_eq!(output_of("mixed", &[object]), "-1 -1 -6 -6 -5 0\n");
}

#[test]
fn bytes_may_stand_at_any_address() {
    assert_eq!(output_of("offsets", &[]), "2048 runs\n");
}

#[test]
fn numbers_have_the_words_of_rust() {
    let output = output_of("texts", &[]);
    let (version, words) = output.split_once('\n').expect("a first line");
    let (number, text) = (defined("SOFRETU_VERSION"), defined("SOFRETU_VERSION_TEXT"));
    assert_eq!(version, format!("{number}|{number}|{text}"));
    let words: BTreeMap<i64, (&str, &str)> = words
        .lines()
        .map(|line| {
            let (number, rest) = line.split_once('|').expect("a number");
            let words = rest.split_once('|').expect("cause and text");
            (number.parse().expect("a number"), words)
        })
        .collect();
    assert_eq!(words.len(), 39);
    let mut texts = Vec::new();
    for (number, (cause, text)) in words {
        let stop = u32::try_from(number).ok().and_then(Stop::from_number);
        match (stop, number) {
            (Some(stop), _) => {
                let expected = (stop.origin().to_string(), stop.to_string());
                assert_eq!((cause, text), (&*expected.0, &*expected.1), "{number}");
                texts.push(text);
            }
            (None, -9..=-1) => {
                assert_eq!(cause, "the program that calls", "{number}");
                texts.push(text);
            }
            (None, 0) => assert_eq!((cause, text), ("nobody", "done")),
            (None, _) => {
                let unknown = ("unknown", "no stop or misuse has this number");
                assert_eq!((cause, text), unknown, "{number}");
            }
        }
    }
    // 9 misuses and 18 stops, each with words of its own.
    texts.sort_unstable();
    texts.dedup();
    assert_eq!(texts.len(), 27);
}

#[test]
fn calls_keep_to_the_stack_that_the_header_says() {
    const KB: usize = 1024;
    let output = output_of("stack", &["-pthread"]);
    let taken: BTreeMap<&str, usize> = output
        .lines()
        .map(|line| {
            let (call, bytes) = line.split_once(' ').expect("a call and its bytes");
            (call, bytes.parse().expect("a number"))
        })
        .collect();
    assert_eq!(taken.len(), 14);
    for (call, bytes) in taken {
        let most = match call {
            "sofretu_ask" | "sofretu_check" => 512 * KB,
            _ => 128 * KB,
        };
        // A quarter is left to whatever calls it.
        assert!(bytes <= most / 4 * 3, "{call} takes {bytes} bytes of stack");
    }
}

/// Runs the install script, from the root of the file system.
fn install(arguments: &[&str], destdir: Option<&Path>) -> Output {
    let mut command = Command::new("sh");
    command
        .arg(root().join("scripts/install.sh"))
        .args(arguments)
        .current_dir("/")
        .env_remove("DESTDIR");
    if let Some(folder) = destdir {
        command.env("DESTDIR", folder);
    }
    command.output().expect("sh runs")
}

/// A new folder of this name for a test.
fn folder(name: &str) -> PathBuf {
    let folder = place(name);
    if folder.exists() {
        fs::remove_dir_all(&folder).expect("what an earlier test left can go");
    }
    fs::create_dir_all(&folder).expect("a folder");
    folder
}

/// The files under a folder, by their places in it.
fn files(under: &Path) -> Vec<String> {
    let mut found = Vec::new();
    let mut folders = vec![under.to_path_buf()];
    while let Some(folder) = folders.pop() {
        for entry in fs::read_dir(folder).expect("a folder") {
            let path = entry.expect("an entry").path();
            if path.is_dir() {
                folders.push(path);
            } else {
                let inside = path.strip_prefix(under).expect("inside");
                found.push(inside.to_str().expect("text").to_owned());
            }
        }
    }
    found.sort();
    found
}

/// The flags that a pkg-config file gives, by pkg-config where it is installed, else read by hand.
fn flags(pkgconfig: &Path) -> Vec<String> {
    let said = if is_installed("pkg-config") {
        let said = Command::new("pkg-config")
            .args(["--cflags", "--libs", "sofretu"])
            .env("PKG_CONFIG_PATH", pkgconfig)
            .output()
            .expect("pkg-config runs");
        succeeded(said, "pkg-config")
    } else {
        left_out("pkg-config is not installed: its file was read by hand");
        let text = fs::read_to_string(pkgconfig.join("sofretu.pc")).expect("the file");
        let after = |key: &str| {
            let line = text.lines().find_map(|line| line.strip_prefix(key));
            line.expect("the key").to_owned()
        };
        (after("Cflags: ") + " " + &after("Libs: "))
            .replace("${libdir}", &after("libdir="))
            .replace("${includedir}", &after("includedir="))
            .replace("${prefix}", &after("prefix="))
    };
    said.split_whitespace().map(str::to_owned).collect()
}

#[test]
fn a_program_is_compiled_against_the_installed_tree() {
    let prefix = folder("installed");
    let path = prefix.to_str().expect("text");
    // The second time with a slash at the end, over the first.
    for again in [path.to_owned(), format!("{path}/")] {
        let said = succeeded(install(&[&again], None), "install.sh");
        assert_eq!(
            said,
            format!("{path}/lib/libsofretu.a\n{path}/include/sofretu.h\n{path}/lib/pkgconfig/sofretu.pc\n")
        );
        let expected = [
            "include/sofretu.h",
            "lib/libsofretu.a",
            "lib/pkgconfig/sofretu.pc",
        ];
        assert_eq!(files(&prefix), expected);
        for (installed, source) in [
            ("include/sofretu.h", "include/sofretu.h"),
            ("lib/libsofretu.a", "target/staticlib/libsofretu.a"),
        ] {
            let installed = fs::read(prefix.join(installed)).expect("a file");
            assert_eq!(installed, fs::read(root().join(source)).expect("a file"));
        }
    }
    let elsewhere = folder("elsewhere");
    fs::copy(root().join(EXAMPLE), elsewhere.join("program.c")).expect("a copy");
    let compiled = Command::new("gcc")
        .args(["-std=c99", "program.c", "-o", "program"])
        .args(flags(&prefix.join("lib/pkgconfig")))
        .current_dir(&elsewhere)
        .output()
        .expect("gcc runs");
    succeeded(compiled, "gcc with pkg-config's flags");
    assert_eq!(run(elsewhere.join("program")), EXAMPLE_PRINTS);
}

#[test]
fn a_package_is_made_in_a_folder_of_its_own() {
    let stage = folder("stage");
    let said = succeeded(install(&["/opt/sofretu"], Some(&stage)), "install.sh");
    assert_eq!(said.lines().count(), 3);
    let expected = [
        "opt/sofretu/include/sofretu.h",
        "opt/sofretu/lib/libsofretu.a",
        "opt/sofretu/lib/pkgconfig/sofretu.pc",
    ];
    assert_eq!(files(&stage), expected);
    let described = fs::read_to_string(stage.join(expected[2])).expect("the file");
    let version = defined("SOFRETU_VERSION_TEXT");
    assert_eq!(
        described.lines().collect::<Vec<&str>>(),
        [
            "prefix=/opt/sofretu",
            "libdir=${prefix}/lib",
            "includedir=${prefix}/include",
            "",
            "Name: sofretu",
            "Description: The proved settings engine",
            &format!("Version: {version}"),
            "Libs: -L${libdir} -lsofretu",
            "Cflags: -I${includedir}",
        ]
    );
}

#[test]
fn what_cannot_be_installed_is_said_in_a_line() {
    let stage = folder("refused");
    for (arguments, status, words) in [
        (&[] as &[&str], 2, "give one prefix"),
        (&["/usr", "/opt"], 2, "give one prefix"),
        (&[""], 2, "is not an absolute path"),
        (&["usr/local"], 2, "is not an absolute path"),
        (&["--prefix=/usr"], 2, "is not an absolute path"),
        (&["/opt/a b"], 2, "a pkg-config file does not carry"),
        (&["/opt/$HOME"], 2, "a pkg-config file does not carry"),
    ] {
        let said = install(arguments, Some(&stage));
        let line = String::from_utf8(said.stderr).expect("text");
        assert_eq!(said.status.code(), Some(status), "{arguments:?}: {line}");
        assert!(line.contains(words), "{arguments:?}: {line}");
        assert_eq!(line.lines().count(), 1, "{arguments:?}: {line}");
        assert!(said.stdout.is_empty(), "{arguments:?}");
    }
    let help = succeeded(install(&["--help"], Some(&stage)), "install.sh --help");
    assert!(help.starts_with("usage: scripts/install.sh PREFIX\n"));

    // A repository in which the library was not made.
    let bare = folder("bare");
    for (from, to) in [
        ("scripts/install.sh", "scripts"),
        ("include/sofretu.h", "include"),
    ] {
        fs::create_dir(bare.join(to)).expect("a folder");
        fs::copy(root().join(from), bare.join(from)).expect("a copy");
    }
    let said = Command::new("sh")
        .arg(bare.join("scripts/install.sh"))
        .arg("/opt/sofretu")
        .env("DESTDIR", &stage)
        .output()
        .expect("sh runs");
    let line = String::from_utf8(said.stderr).expect("text");
    assert_eq!(said.status.code(), Some(1), "{line}");
    assert!(line.contains("run 'scripts/build.sh' in "), "{line}");
    assert_eq!(line.lines().count(), 1, "{line}");
    assert!(files(&stage).is_empty());
}
