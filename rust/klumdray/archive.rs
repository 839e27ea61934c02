//! Which machine the code of an archive is for. build.rs asks it before anything is linked;
//! tests/archive.rs tests it.

use std::fmt;

/// A machine, as the first object file of an archive names it.
#[derive(Clone, Copy, Debug, PartialEq, Eq)]
pub enum Machine {
    /// An ELF file's e_machine, low octet first, and its class in bits.
    Elf { number: u16, bits: u8 },
    /// WebAssembly, of 32 bits as all that is made of it here.
    Wasm,
}

/// ELF's numbers and cargo's words for the same machines.
const KNOWN: [(u16, u8, &str); 6] = [
    (62, 64, "x86_64"),
    (183, 64, "aarch64"),
    (40, 32, "arm"),
    (243, 32, "riscv32"),
    (243, 64, "riscv64"),
    (3, 32, "x86"),
];

const WASM: &str = "wasm32";

impl Machine {
    /// The word that cargo has for it (CARGO_CFG_TARGET_ARCH), if it is one of those known here.
    pub fn arch(self) -> Option<&'static str> {
        match self {
            Machine::Elf { number, bits } => KNOWN
                .iter()
                .find(|known| (known.0, known.1) == (number, bits))
                .map(|known| known.2),
            Machine::Wasm => Some(WASM),
        }
    }

    /// Whether it can be the one that cargo builds for: where neither is known here, the linker is
    /// left to say.
    pub fn may_be(self, arch: &str) -> bool {
        match self.arch() {
            Some(known) => known == arch,
            None => arch != WASM && KNOWN.iter().all(|known| known.2 != arch),
        }
    }
}

impl fmt::Display for Machine {
    fn fmt(&self, f: &mut fmt::Formatter<'_>) -> fmt::Result {
        match (self, self.arch()) {
            (_, Some(arch)) => f.write_str(arch),
            (Machine::Elf { number, bits }, None) => write!(f, "ELF machine {number}, {bits} bits"),
            (Machine::Wasm, None) => f.write_str(WASM),
        }
    }
}

const MAGIC: &[u8] = b"!<arch>\n";
const HEAD: usize = 60;

/// The machine of the first object file in an archive, or what is wrong with the archive.
pub fn machine(archive: &[u8]) -> Result<Machine, &'static str> {
    let mut rest = archive.strip_prefix(MAGIC).ok_or("is not an archive")?;
    while !rest.is_empty() {
        let (name, octets, behind) = member(rest).ok_or("is an archive that is cut short")?;
        if !is_index(name) {
            return object(octets).ok_or("begins with a file that is neither ELF nor WebAssembly");
        }
        rest = behind;
    }
    Err("is an archive without an object file")
}

/// The name and the octets of the first member, and what is behind it. A member begins at an even
/// place; a name of BSD's is the first of its octets.
fn member(archive: &[u8]) -> Option<(&[u8], &[u8], &[u8])> {
    let (head, rest) = archive.split_at_checked(HEAD)?;
    let size = number(&head[48..58])?;
    let (octets, behind) = rest.split_at_checked(size)?;
    let behind = behind.get(size % 2..).unwrap_or(&[]);
    match head[..16].strip_prefix(b"#1/") {
        Some(length) => {
            let (name, octets) = octets.split_at_checked(number(length)?)?;
            Some((name, octets, behind))
        }
        None => Some((&head[..16], octets, behind)),
    }
}

/// Digits with blanks behind them.
fn number(digits: &[u8]) -> Option<usize> {
    std::str::from_utf8(digits).ok()?.trim_end().parse().ok()
}

/// Whether a member is no object file: an index of symbols, or the long names of the others.
fn is_index(name: &[u8]) -> bool {
    let is_blank = |rest: &[u8]| rest.iter().all(|octet| *octet == b' ');
    let gnu: [&[u8]; 3] = [b"/", b"//", b"/SYM64/"];
    name.starts_with(b"__.SYMDEF")
        || gnu
            .into_iter()
            .any(|index| name.strip_prefix(index).is_some_and(is_blank))
}

fn object(octets: &[u8]) -> Option<Machine> {
    if octets.starts_with(b"\0asm") {
        return Some(Machine::Wasm);
    }
    let elf = octets.strip_prefix(b"\x7fELF")?;
    let bits = match elf.first()? {
        1 => 32,
        2 => 64,
        _ => return None,
    };
    let number = [*elf.get(14)?, *elf.get(15)?];
    let number = match elf[1] {
        1 => u16::from_le_bytes(number),
        // High octet first: no machine that is known here, whatever its number.
        _ => return Some(Machine::Elf { number: 0, bits }),
    };
    Some(Machine::Elf { number, bits })
}

/// The name that tools/library-for has for a target of rustc's, if it makes a library for it.
pub fn library_for(target: &str) -> Option<&'static str> {
    let (arch, _) = target.split_once('-')?;
    Some(match arch {
        "x86_64" => "x86-64",
        "aarch64" => "aarch64",
        "wasm32" | "wasm32v1" => "wasm32",
        "thumbv6m" => "cortex-m0",
        "thumbv7m" => "cortex-m3",
        "thumbv7em" if target.ends_with("hf") => "cortex-m4f",
        "thumbv7em" => "cortex-m4",
        "riscv32imc" | "riscv32imac" | "riscv32imafc" => "rv32imc",
        _ => return None,
    })
}
