//! walumpeh man: the command's manual page, made of its own help.

use crate::fault::Fault;
use crate::files::print;
use clap::Command;
use std::process::ExitCode;

/// Print the manual page of this command
///
/// Example:
///     walumpeh man > walumpeh.1
#[derive(clap::Args)]
#[command(verbatim_doc_comment)]
pub struct Args {}

pub fn run(mut line: Command) -> Result<ExitCode, Fault> {
    line.build();
    let version = line.get_version().unwrap_or_default();
    let about = line.get_about().map(ToString::to_string).unwrap_or_default();
    let mut page = format!(".TH WALUMPEH 1 \"\" \"walumpeh {}\"\n", quoted(version));
    page += &format!(".SH NAME\nwalumpeh \\- {}\n", quoted(&about));
    page += ".SH SYNOPSIS\n.B walumpeh\nCOMMAND ..\n.SH DESCRIPTION\n";
    page += &as_it_stands(&line.render_long_help().to_string());
    for command in line.get_subcommands_mut().filter(|command| command.get_name() != "help") {
        page += &format!(".SH {}\n", command.get_name().to_uppercase());
        page += &as_it_stands(&command.render_long_help().to_string());
    }
    print::text(&page)
}

/// Text whose lines stay as they are.
fn as_it_stands(text: &str) -> String {
    let lines = text.trim_end().lines().map(|line| format!("\\&{}\n", quoted(line)));
    format!(".nf\n{}.fi\n", lines.collect::<String>())
}

/// Text in which nothing is a command of the page.
fn quoted(text: &str) -> String {
    text.replace('\\', "\\e").replace('-', "\\-").replace('\'', "\\(aq")
}
