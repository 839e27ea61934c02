//! Links the proved library, libklumdray.a, from the folder that KLUMDRAY_LIBRARY names: a path, and
//! a relative one is taken from the root of this repository. Without it the folder is target/x86-64 on
//! x86-64, where `tools/library-for x86-64` writes the library, and elsewhere target/emulated, whose
//! library `tools/emulate-library` puts in front of that one, for tests. An archive for another machine
//! than cargo builds for is refused. `cargo build -vv` shows which one was found.

mod archive;

use std::path::{Path, PathBuf};
use std::{env, fs, process};

const LIBRARY: &str = "libklumdray.a";

fn main() {
    println!("cargo:rerun-if-env-changed=KLUMDRAY_LIBRARY");
    let wanted = Wanted::by_cargo();
    let folder = wanted.folder();
    let library = folder.join(LIBRARY);
    println!("cargo:rerun-if-changed={}", library.display());
    match wanted.found(&folder) {
        Ok(machine) => eprintln!(
            "klumdray: building for {}, with {}, which is code for {machine}",
            wanted.target,
            library.display()
        ),
        Err(fault) => {
            eprintln!("klumdray: {fault}");
            process::exit(1);
        }
    }
    // Tests ask less where each call goes to an emulated process.
    let name = folder.file_name().unwrap_or_default().to_string_lossy();
    println!("cargo:rustc-env=KLUMDRAY_LINKED={name}");
    println!("cargo:rustc-link-search=native={}", folder.display());
    println!("cargo:rustc-link-lib=static=klumdray");
}

/// What cargo builds for, and the folder that is named.
struct Wanted {
    target: String,
    arch: String,
    named: Option<PathBuf>,
}

impl Wanted {
    fn by_cargo() -> Wanted {
        let named = env::var_os("KLUMDRAY_LIBRARY").filter(|name| !name.is_empty());
        Wanted {
            target: by_cargo("TARGET"),
            arch: by_cargo("CARGO_CFG_TARGET_ARCH"),
            named: named.map(PathBuf::from),
        }
    }

    /// Whether the library that the tests of this repository run is code for what cargo builds for.
    fn is_native(&self) -> bool {
        self.arch == "x86_64"
    }

    /// The folder that the library is looked for in.
    fn folder(&self) -> PathBuf {
        let package = PathBuf::from(by_cargo("CARGO_MANIFEST_DIR"));
        let root = package.ancestors().nth(2).unwrap_or(&package);
        match &self.named {
            Some(named) => root.join(named),
            None if self.is_native() => root.join("target/x86-64"),
            None => root.join("target/emulated"),
        }
    }

    /// The machine of a library that is there and can be linked, or what is wrong and what helps, in
    /// one sentence.
    fn found(&self, folder: &Path) -> Result<archive::Machine, String> {
        let library = folder.join(LIBRARY);
        let (shown, remedy) = (library.display(), self.remedy());
        let Ok(octets) = fs::read(&library) else {
            let folder = folder.display();
            let named = match self.named {
                Some(_) => "the folder that KLUMDRAY_LIBRARY names",
                None => "and KLUMDRAY_LIBRARY names no other folder",
            };
            return Err(format!(
                "there is no {LIBRARY} in {folder}, {named}; {remedy}"
            ));
        };
        let machine =
            archive::machine(&octets).map_err(|fault| format!("{shown} {fault}; {remedy}"))?;
        if !machine.may_be(&self.arch) {
            let target = &self.target;
            return Err(format!(
                "{shown} is code for {machine}, but cargo builds for {target}; {remedy}"
            ));
        }
        Ok(machine)
    }

    /// Which commands make a library.
    fn remedy(&self) -> String {
        let target = &self.target;
        let made = match archive::library_for(target) {
            Some(name) => {
                format!("`tools/library-for {name}` makes target/{name}/{LIBRARY} for {target}")
            }
            None => format!("`tools/library-for` makes none for {target}"),
        };
        if self.named.is_some() || self.is_native() {
            return made;
        }
        let emulated = "tools/library-for x86-64 && tools/emulate-library";
        format!("{made}, and `{emulated}` the one for this repository's tests")
    }
}

fn by_cargo(variable: &str) -> String {
    env::var(variable).unwrap_or_else(|_| panic!("cargo sets {variable}"))
}
