//! The man page, from the list of verbs and options.

use crate::cli::{self, NAME, NOTES};
use clap::{Arg, Command};

pub fn page() -> String {
    let mut command = cli::command();
    command.build();
    let about = command.get_about().map(ToString::to_string).unwrap_or_default();
    let mut page = format!(".TH UMAREKOZA 1 \"\" \"umarekoza {}\"\n", umarekoza::VERSION);
    page += &format!(".SH NAME\n{NAME} \\- {}\n.SH SYNOPSIS\n", escaped(&about));
    let verbs: Vec<Command> =
        command.get_subcommands().filter(|verb| verb.get_name() != "help").cloned().collect();
    let usages: Vec<String> = verbs.iter().map(usage).chain(OTHERS.map(line)).collect();
    page += &usages.join(".br\n");
    page += &format!(".SH DESCRIPTION\n{}.SH VERBS\n", NOTES.map(line).join(".PP\n"));
    for verb in &verbs {
        page += &verb_section(verb);
    }
    page += ".SH EXAMPLES\n.nf\n";
    for example in EXAMPLES {
        page += &line(example);
    }
    page + ".fi\n"
}

/// What clap adds to the verbs.
const OTHERS: [&str; 2] = ["umarekoza help [VERB]", "umarekoza --version"];

const EXAMPLES: [&str; 8] = [
    "umarekoza check page.txt",
    "umarekoza read --hex page.txt packet.hex",
    "umarekoza read --json --lines page.txt packets.txt",
    "umarekoza bytes page.txt packet.bin Readings",
    "umarekoza readers page.txt Cells",
    "umarekoza cut page.txt Borrower -o shorter.table",
    "umarekoza put shorter.table grade.txt --before Sum --dry-run",
    "umarekoza convert old.table -o new.table",
];

/// A verb with its arguments and options.
fn verb_section(verb: &Command) -> String {
    let about = verb.get_about().map(ToString::to_string).unwrap_or_default();
    let mut section = format!(".SS {}\n{}", escaped(verb.get_name()), line(&about));
    for arg in verb.get_arguments().filter(|arg| arg.get_id() != "help") {
        let help = arg.get_help().map(ToString::to_string).unwrap_or_default();
        section += &format!(".TP\n{}{}", line(&argument(arg)), line(&help));
    }
    let more = verb.get_after_help().map(|more| format!(".PP\n{}", line(&more.to_string())));
    section + &more.unwrap_or_default()
}

/// How an argument or option is written.
fn argument(arg: &Arg) -> String {
    let short = arg.get_short().map(|short| format!("-{short}"));
    let long = arg.get_long().map(|long| format!("--{long}"));
    let options: Vec<String> = [short, long].into_iter().flatten().collect();
    let values = if arg.get_action().takes_values() { arg.get_value_names() } else { None };
    let value = values.unwrap_or_default().first().map(ToString::to_string);
    [options.join(", "), value.unwrap_or_default()].join(" ").trim().to_string()
}

fn usage(verb: &Command) -> String {
    let usage = verb.clone().render_usage().to_string();
    line(usage.trim_start_matches("Usage: "))
}

/// A line of text for roff.
fn line(text: &str) -> String {
    format!("{}\n", escaped(text))
}

fn escaped(text: &str) -> String {
    let text = text.replace('\\', "\\e").replace('-', "\\-");
    let starts_a_request = text.starts_with(['.', '\'']);
    if starts_a_request {
        format!("\\&{text}")
    } else {
        text
    }
}
