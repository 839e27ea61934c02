//! What the build script reads of an archive: the machine of its first object file.

#[path = "../archive.rs"]
mod archive;

use archive::{library_for, machine, Machine};
use std::fs;
use std::path::Path;

/// A member: a name of at most 16 octets, and its octets.
fn member(name: &str, octets: &[u8]) -> Vec<u8> {
    let size = octets.len();
    let head = format!("{name:<16}{:<12}{:<6}{:<6}{:<8}{size:<10}`\n", 0, 0, 0, 644);
    let pad: &[u8] = if size % 2 == 1 { b"\n" } else { b"" };
    [head.as_bytes(), octets, pad].concat()
}

fn archive_of(members: &[Vec<u8>]) -> Vec<u8> {
    [b"!<arch>\n".as_slice(), &members.concat()].concat()
}

/// The first octets of an ELF file, low octets first.
fn elf(class: u8, number: u16) -> Vec<u8> {
    let mut octets = vec![0x7f, b'E', b'L', b'F', class, 1, 1];
    octets.resize(16, 0);
    octets.extend([1, 0]);
    octets.extend(number.to_le_bytes());
    octets.resize(64, 0);
    octets
}

fn of(octets: &[u8]) -> Result<Machine, &'static str> {
    machine(&archive_of(&[member("lib.o/", octets)]))
}

const MACHINES: [(u8, u16, &str); 6] = [
    (2, 62, "x86_64"),
    (2, 183, "aarch64"),
    (1, 40, "arm"),
    (1, 243, "riscv32"),
    (2, 243, "riscv64"),
    (1, 3, "x86"),
];

#[test]
fn each_machine_is_known_and_no_other() {
    for (class, number, arch) in MACHINES {
        let found = of(&elf(class, number)).unwrap();
        assert_eq!(found.arch(), Some(arch));
        assert_eq!(found.to_string(), arch);
        for (_, _, other) in MACHINES {
            assert_eq!(found.may_be(other), other == arch, "{arch} {other}");
        }
        assert!(!found.may_be("wasm32") && !found.may_be("powerpc64"));
    }
    let wasm = of(b"\0asm\x01\0\0\0").unwrap();
    assert_eq!((wasm, wasm.to_string().as_str()), (Machine::Wasm, "wasm32"));
    assert!(wasm.may_be("wasm32") && !wasm.may_be("x86_64"));
}

#[test]
fn a_machine_that_is_not_known_may_be_another_that_is_not() {
    for octets in [elf(2, 21), elf(1, 62), elf(1, 183)] {
        let found = of(&octets).unwrap();
        assert_eq!(found.arch(), None);
        assert!(found.may_be("powerpc64"));
        for (_, _, arch) in MACHINES {
            assert!(!found.may_be(arch), "{found} {arch}");
        }
        assert!(!found.may_be("wasm32"));
    }
    assert_eq!(
        of(&elf(2, 21)).unwrap().to_string(),
        "ELF machine 21, 64 bits"
    );
    let mut high_first = elf(2, 0);
    high_first[5] = 2;
    high_first[18..20].copy_from_slice(&183u16.to_be_bytes());
    assert!(!of(&high_first).unwrap().may_be("aarch64"));
}

#[test]
fn what_is_no_object_file_is_passed_over() {
    let object = elf(1, 40);
    let symbols = member("/", &[1, 2, 3]);
    let names = member("//", b"a long name of an object file.o/\n");
    let large = member("/SYM64/", &elf(2, 62));
    let bsd = member("__.SYMDEF", &elf(2, 62));
    let named = member(
        "#1/20",
        &[b"__.SYMDEF SORTED\0\0\0\0".as_slice(), &elf(2, 62)].concat(),
    );
    let long = member("/0", &object);
    let expected = Ok(Machine::Elf {
        number: 40,
        bits: 32,
    });
    let others = [symbols, names, large, bsd, named];
    for count in 0..=others.len() {
        let members = [
            &others[..count],
            &[long.clone(), member("x.o/", &elf(2, 62))],
        ]
        .concat();
        assert_eq!(machine(&archive_of(&members)), expected, "{count} before");
    }
    let bsd_object = member(
        "#1/12",
        &[b"lib.o\0\0\0\0\0\0\0".as_slice(), &object].concat(),
    );
    assert_eq!(machine(&archive_of(&[bsd_object])), expected);
    assert_eq!(
        machine(&archive_of(&others)),
        Err("is an archive without an object file")
    );
}

#[test]
fn what_is_no_archive_of_object_files_is_refused() {
    let whole = archive_of(&[member("lib.o/", &elf(2, 62))]);
    let none = Err("is not an archive");
    for octets in [&b""[..], b"!<arch>", b"!<thin>\n", &elf(2, 62), &whole[1..]] {
        assert_eq!(machine(octets), none);
    }
    let empty = Err("is an archive without an object file");
    assert_eq!(machine(b"!<arch>\n"), empty);
    for end in 9..whole.len() {
        let cut = machine(&whole[..end]);
        assert_eq!(cut, Err("is an archive that is cut short"), "{end}");
    }
    let other = Err("begins with a file that is neither ELF nor WebAssembly");
    for octets in [
        &b""[..],
        b"\x7fELF",
        b"BC\xc0\xde",
        b"\x64\x86",
        &elf(3, 62),
        &elf(2, 62)[..19],
    ] {
        assert_eq!(of(octets), other, "{octets:x?}");
    }
    let mut size = whole.clone();
    size[8 + 48..8 + 58].copy_from_slice(b"abcdefghij");
    assert_eq!(machine(&size), Err("is an archive that is cut short"));
}

#[test]
fn the_linked_library_is_for_this_machine() {
    let root = Path::new(env!("CARGO_MANIFEST_DIR")).ancestors().nth(2);
    let folders = [
        ("emulated", std::env::consts::ARCH),
        ("x86-64", "x86_64"),
        ("aarch64", "aarch64"),
        ("cortex-m0", "arm"),
        ("cortex-m3", "arm"),
        ("cortex-m4", "arm"),
        ("cortex-m4f", "arm"),
        ("rv32imc", "riscv32"),
        ("wasm32", "wasm32"),
    ];
    for (name, arch) in folders {
        let library = root
            .unwrap()
            .join("target")
            .join(name)
            .join("libklumdray.a");
        match fs::read(library) {
            Ok(octets) => {
                let found = machine(&octets).unwrap();
                println!("target/{name}: {found}");
                assert_eq!(found.arch(), Some(arch), "target/{name}");
            }
            Err(_) => assert_ne!(klumdray::LINKED, name),
        }
    }
}

#[test]
fn each_target_has_its_library() {
    let targets = [
        ("x86_64-unknown-linux-gnu", Some("x86-64")),
        ("aarch64-unknown-linux-gnu", Some("aarch64")),
        ("aarch64-unknown-none", Some("aarch64")),
        ("thumbv6m-none-eabi", Some("cortex-m0")),
        ("thumbv7m-none-eabi", Some("cortex-m3")),
        ("thumbv7em-none-eabi", Some("cortex-m4")),
        ("thumbv7em-none-eabihf", Some("cortex-m4f")),
        ("riscv32imc-unknown-none-elf", Some("rv32imc")),
        ("riscv32imac-unknown-none-elf", Some("rv32imc")),
        ("riscv32i-unknown-none-elf", None),
        ("wasm32-unknown-unknown", Some("wasm32")),
        ("powerpc64-unknown-linux-gnu", None),
    ];
    for (target, name) in targets {
        assert_eq!(library_for(target), name, "{target}");
    }
}
