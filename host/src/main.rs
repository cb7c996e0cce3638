//! `arsurimo`: the proved box and router, to be tried.

mod args;
mod demo;
mod device;
mod ends;
mod explain;
mod hex;
mod refusals;
mod said;
mod timed;
mod timers;
mod words;

use args::{Args, Failure};
use std::process::ExitCode;

const HELP: &str = "\
arsurimo: DHCPv6 prefix delegation with a proved core

  arsurimo demo [--seed N]    the accident of the introduction, and a random, lossy day; every end is the proved library
  arsurimo explain            reads a captured message as hex from standard input, and prints it option by option
  arsurimo box ...            the delegating side on a real network (UDP port 547); arsurimo box --help
  arsurimo router ...         the requesting side on a real network (UDP port 546); arsurimo router --help
  arsurimo --help             this text

Exit codes: 0 done, 1 something failed, 2 the command wasn't understood.
";

fn demo_command(args: &mut Args) -> Result<(), Failure> {
    if args.flag("--help") {
        print!("{HELP}");
        return Ok(());
    }
    let seed = args.number("--seed")?.unwrap_or(1);
    args.finish()?;
    demo::run(seed).map_err(Failure::Failed)
}

fn command(args: &mut Args) -> Result<(), Failure> {
    match args.command().as_deref() {
        Some("demo") => demo_command(args),
        Some("explain") => explain::command(args),
        Some("box") => device::box_command::command(args),
        Some("router") => device::router_command::command(args),
        Some("help" | "--help" | "-h") => {
            print!("{HELP}");
            Ok(())
        }
        Some(other) => Err(Failure::Usage(format!("there is no command {other:?}"))),
        None => Err(Failure::Usage("no command is given".to_string())),
    }
}

fn main() -> ExitCode {
    device::signals::end_with_reader();
    let mut args = Args::new(std::env::args().skip(1).collect());
    match command(&mut args) {
        Ok(()) => ExitCode::SUCCESS,
        Err(Failure::Usage(what)) => {
            eprintln!("arsurimo: {what}. `arsurimo --help` shows what there is.");
            ExitCode::from(2)
        }
        Err(Failure::Failed(what)) => {
            eprintln!("arsurimo: {what}");
            ExitCode::from(1)
        }
    }
}
