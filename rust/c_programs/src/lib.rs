//! For tests of the headers in `include/`: programs in C and C++, compiled with warnings as errors and
//! linked with archives of the proved libraries.

use std::fs;
use std::path::{Path, PathBuf};
use std::process::Command;

/// The standards of both languages that the headers are for.
pub const STANDARDS: [&str; 2] = ["c99", "c++11"];

/// Warnings of both languages, and of C++ alone.
const WARNINGS: [&str; 6] = [
    "-Wall",
    "-Wextra",
    "-Wconversion",
    "-Wsign-conversion",
    "-Werror",
    "-pedantic",
];
const WARNINGS_CPP: [&str; 1] = ["-Wold-style-cast"];

/// The programs of a test: where their files are, and the libraries whose archives they link.
pub struct Programs {
    pub folder: PathBuf,
    pub libraries: &'static [&'static str],
}

impl Programs {
    /// The program of these source files, in the language of the standard; it is named after the first.
    pub fn program(&self, standard: &str, sources: &[PathBuf]) -> PathBuf {
        let name = sources[0].file_stem().expect("a file").to_string_lossy();
        let program = self.folder.join(format!("{name}-{standard}"));
        let mut compile = compiler(standard);
        compile.args(sources).args(["-x", "none"]);
        for library in self.libraries {
            compile.arg(repository().join(format!("target/staticlib/lib{library}.a")));
        }
        written(compile.arg("-o").arg(&program));
        program
    }

    /// The program of this source writes this, in both languages.
    pub fn assert_writes(&self, name: &str, source: &str, expected: &str) {
        self.assert_all_write(&[(name, source)], expected);
    }

    /// The same of a program of several sources.
    pub fn assert_all_write(&self, sources: &[(&str, &str)], expected: &str) {
        let files = sources
            .iter()
            .map(|(name, source)| self.source(name, source));
        let files: Vec<PathBuf> = files.collect();
        for standard in STANDARDS {
            let program = self.program(standard, &files);
            assert_eq!(written(&mut Command::new(program)), expected, "{standard}");
        }
    }

    /// The compiler turns this source down and says this, in both languages.
    pub fn assert_turned_down(&self, name: &str, source: &str, said: &str) {
        let file = self.source(name, source);
        for standard in STANDARDS {
            let mut compile = compiler(standard);
            compile.env("LC_ALL", "C").arg("-fsyntax-only").arg(&file);
            let output = compile.output().expect("the compiler starts");
            let told = String::from_utf8_lossy(&output.stderr);
            assert!(!output.status.success(), "{standard}");
            assert!(told.contains(said), "{standard}\n{told}");
        }
    }

    /// A header says these numbers, each of them a constant.
    pub fn assert_constants(&self, header: &str, constants: &[(String, usize)]) {
        // An array of a negative length does not compile.
        let lines = constants.iter().enumerate().map(|(index, (name, number))| {
            format!("typedef char equal_{index}[({name}) == {number} ? 1 : -1];\n")
        });
        let lines: String = lines.collect();
        let source = format!("#include \"{header}\"\n{lines}");
        let file = self.source(&format!("constants_of_{header}.c"), &source);
        written(compiler("c99").arg("-fsyntax-only").arg(&file));
    }

    fn source(&self, name: &str, source: &str) -> PathBuf {
        let file = self.folder.join(name);
        fs::write(&file, source).expect("the file is written");
        file
    }
}

/// What a program writes; it must succeed.
pub fn written(command: &mut Command) -> String {
    spawned::written(command, &[])
}

/// gcc or g++ for sources of its language, with the headers, and warnings as errors.
fn compiler(standard: &str) -> Command {
    let (name, language, more) = match standard.starts_with("c++") {
        true => ("g++", "c++", &WARNINGS_CPP[..]),
        false => ("gcc", "c", &[][..]),
    };
    let mut compiler = Command::new(name);
    compiler.arg(format!("-std={standard}"));
    compiler.args(WARNINGS).args(more);
    compiler.arg("-I").arg(repository().join("include"));
    compiler.args(["-x", language]);
    compiler
}

/// The folder of the whole project.
pub fn repository() -> PathBuf {
    Path::new(env!("CARGO_MANIFEST_DIR")).join("../..")
}
