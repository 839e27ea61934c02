use planner::commands::{run, Streams};
use std::io::{self, BufWriter, ErrorKind, Write};
use std::process::ExitCode;

fn main() -> ExitCode {
    let words: Vec<String> = std::env::args_os()
        .skip(1)
        .map(|word| word.to_string_lossy().into_owned())
        .collect();
    let mut output = BufWriter::new(io::stdout().lock());
    let ended = run(
        &words,
        &mut Streams {
            input: &mut io::stdin().lock(),
            output: &mut output,
            errors: &mut io::stderr().lock(),
        },
    );
    match ended.and_then(|status| output.flush().map(|()| status)) {
        Ok(status) => ExitCode::from(status as u8),
        // Whoever reads has seen enough, as `head` has.
        Err(error) if error.kind() == ErrorKind::BrokenPipe => ExitCode::SUCCESS,
        Err(error) => {
            eprintln!("klumdray: {error}");
            ExitCode::from(2)
        }
    }
}
