//! calls COUNT SEED [--small] [--wrong WHAT] > FILE

use calls::{table, Options, Table, Wrong};
use inputs::number;
use std::io::Write;
use std::process::ExitCode;

const USAGE: &str = "usage: calls COUNT SEED [--small] [--wrong WHAT] > FILE
  COUNT    how many calls, 150 at least
  SEED     a number, hexadecimal behind 0x
  --small  for a machine with 64 kB
  --wrong  with one thing wrong, to try a player: answer, room, count or function";

fn options(arguments: &[String]) -> Option<Options> {
    let [count, seed, switches @ ..] = arguments else {
        return None;
    };
    let mut options = Options {
        count: number(count).ok().filter(|&count| count >= 150)? as usize,
        seed: number(seed).ok()?,
        is_small: false,
        wrong: None,
    };
    let mut switches = switches.iter();
    while let Some(switch) = switches.next() {
        match switch.as_str() {
            "--small" => options.is_small = true,
            "--wrong" => options.wrong = Some(wrong(switches.next()?)?),
            _ => return None,
        }
    }
    Some(options)
}

fn wrong(text: &str) -> Option<Wrong> {
    match text {
        "answer" => Some(Wrong::Answer),
        "room" => Some(Wrong::Room),
        "count" => Some(Wrong::Count),
        "function" => Some(Wrong::Function),
        _ => None,
    }
}

fn write(table: Table) -> std::io::Result<()> {
    let calls = table.count();
    let octets = table.into_octets();
    std::io::stdout().lock().write_all(&octets)?;
    eprintln!("{calls} calls in {} octets", octets.len());
    Ok(())
}

fn main() -> ExitCode {
    let arguments: Vec<String> = std::env::args().skip(1).collect();
    let Some(options) = options(&arguments) else {
        eprintln!("{USAGE}");
        return ExitCode::from(2);
    };
    match write(table(options)) {
        Ok(()) => ExitCode::SUCCESS,
        Err(error) => {
            eprintln!("calls: {error}");
            ExitCode::FAILURE
        }
    }
}
