//! The command `walumpeh`: a thin shell over the proved library. Files, arguments and tapes are handled
//! here; whether a problem is accepted and what a run answers is always the library's word.
//!
//! | module     | what it holds                                             |
//! |------------|-----------------------------------------------------------|
//! | `commands` | one module for each subcommand                            |
//! | `files`    | reading, writing and printing                             |
//! | `problem`  | an accepted problem from a file                           |
//! | `draw`     | starts and tapes by chance                                |
//! | `given`    | a problem from a file of any sort, with its inputs' names |
//! | `btor2`    | what is read of BTOR2 beside the library's converter      |
//! | `guided`   | what is asked of the guide                                |
//! | `known`    | a known solution from a file                              |
//! | `found`    | a model in the forms that it is printed in                |
//! | `gathered` | kept solutions in the forms that they are written in      |
//! | `progress` | the line on a terminal that tells how far it is           |
//! | `names`    | lists of the variables' names                             |
//! | `pins`     | values for nodes, from an answer or a start               |
//! | `fault`    | what goes wrong, in words for the user                    |
//! | `started`  | what has to be looked at before Rust's own start          |

mod btor2;
mod commands;
mod draw;
mod fault;
mod files;
mod found;
mod gathered;
mod given;
mod guided;
mod known;
mod names;
mod pins;
mod problem;
mod progress;
mod started;

use clap::{CommandFactory, Parser};
use commands::Command;
use fault::Fault;
use std::io::Write;
use std::process::ExitCode;

/// Search for values that meet bit-vector conditions, by a proved local search
#[derive(Parser)]
#[command(name = "walumpeh", version = VERSION, propagate_version = true, after_help = STATUS)]
struct Line {
    #[command(subcommand)]
    command: Command,
}

/// The version, and the commit of command and library.
const VERSION: &str = match walumpeh::PROVED {
    true => concat!(env!("CARGO_PKG_VERSION"), " (", env!("WALUMPEH_COMMIT"), ")"),
    false => concat!(env!("CARGO_PKG_VERSION"), " (", env!("WALUMPEH_COMMIT"), ", on the unproved stub)"),
};

const STATUS: &str = "\
Where a file is read or written, '-' is standard input or output.
Exit status: 0 done; 1 refused, or a file cannot be read or written; 2 the command line is not understood.
run, batch, gather, solve and model have more.";

fn main() -> ExitCode {
    let mut trouble = ExitCode::FAILURE;
    let done = match Line::try_parse() {
        Ok(line) => {
            trouble = line.command.trouble();
            line.command.run(Line::command())
        }
        Err(error) if error.use_stderr() => {
            tell(&error.to_string());
            return ExitCode::from(2);
        }
        // --help and --version
        Err(asked) => files::print::text(&asked.to_string()),
    };
    match done {
        Ok(status) => status,
        Err(Fault::Unheard) => trouble,
        Err(Fault::Told(words)) => {
            tell(&format!("walumpeh: {words}\n"));
            trouble
        }
    }
}

/// Says something on standard error; where that cannot be, the status still tells. What was read may hold anything, and none of
/// it is to reach a terminal as a command.
fn tell(words: &str) {
    let shown = |c: char| if c.is_control() && c != '\n' { char::REPLACEMENT_CHARACTER } else { c };
    let _ = std::io::stderr().write_all(words.chars().map(shown).collect::<String>().as_bytes());
}
