//! The proved program `trace`.

use crate::tool::{root, Ended};
use std::env::{self, consts::ARCH};
use std::io::Write;
use std::path::PathBuf;
use std::process::{Command, Stdio};

/// Runs the program on octets.
pub fn program(octets: &[u8]) -> Ended {
    let mut command = command();
    let command = command.stdin(Stdio::piped()).stdout(Stdio::piped());
    let mut running = command.stderr(Stdio::piped()).spawn().expect("it starts");
    let input = running.stdin.take();
    input.expect("a pipe").write_all(octets).expect("it reads");
    running.wait_with_output().expect("it ends").into()
}

/// Its code is for x86-64. Elsewhere it runs under an emulator, with the kit's loader and C library.
fn command() -> Command {
    let program = root().join("crates/trace/out/trace");
    let missing = format!("{} is missing; run: rt run, there", program.display());
    assert!(program.is_file(), "{missing}");
    if ARCH == "x86_64" {
        return Command::new(program);
    }
    let libraries = kit().join("toolchain/lib");
    let loader = libraries.join("ld-linux-x86-64.so.2");
    let mut command = Command::new("qemu-x86_64");
    command.arg(loader).arg("--library-path").arg(libraries);
    command.arg(program);
    command
}

/// As tools/emulate-library finds it: the folder above that of `rt`.
fn kit() -> PathBuf {
    let path = env::var_os("PATH").unwrap_or_default();
    let mut places = env::split_paths(&path).map(|folder| folder.join("rt"));
    let rt = places
        .find(|place| place.is_file())
        .expect("rt on the PATH");
    let rt = rt.canonicalize().expect("where rt lies");
    rt.ancestors().nth(2).expect("a kit around rt").into()
}
