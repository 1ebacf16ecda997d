//! The command `umarekoza`: arguments, files and exit status round the library. Whether a page, a table or a
//! packet is accepted is the library's answer alone.
//!
//! `cli` has the verbs and options, and `requests` reads a command line by them. `inputs` reads files, `folders`
//! what is in folders, `sources` pages and tables, `fed` pages as they come, `packets` packets, `hex` and `dump`
//! those that are written in hexadecimal. `table`, `read`, `bytes`, `check`, `watch`, `readers`, `cut`, `put`,
//! `convert` and `numbers` are the verbs, `man` and clap_complete make the man page and the completions. `edits` is
//! what `cut` and `put` share, `changes` says what they change, `records` has the fields of a table as they are put
//! in. `explain` says what a refusal means, `draw` draws that, `json` says answers for programs, `fields` finds
//! fields, `names` shows names. `outputs` and `replace` write results, with `progress` beside them.

mod bytes;
mod changes;
mod check;
mod cli;
mod convert;
mod cut;
mod draw;
mod dump;
mod edits;
mod explain;
mod fed;
mod fields;
mod folders;
mod hex;
mod inputs;
mod json;
mod man;
mod names;
mod numbers;
mod outputs;
mod packets;
mod progress;
mod put;
mod read;
mod readers;
mod records;
mod replace;
mod requests;
mod sources;
mod standard;
mod table;
mod watch;

use requests::Request;
use std::env;
use std::process::ExitCode;

/// How a run ends, the worst last: each is an exit status.
#[derive(Clone, Copy, Debug, PartialEq, Eq, PartialOrd, Ord)]
enum Status {
    Accepted = 0,
    Refused = 1,
    Failed = 2,
}

/// What went wrong with arguments, files or standard output.
enum Failure {
    /// A message for standard error.
    Said(String),
    /// Nobody reads standard output any longer: there is nothing to say.
    Closed,
}

impl From<String> for Failure {
    fn from(message: String) -> Self {
        Failure::Said(message)
    }
}

fn main() -> ExitCode {
    let status = run().unwrap_or_else(|failure| {
        if let Failure::Said(message) = failure {
            outputs::complain(&message);
        }
        Status::Failed
    });
    ExitCode::from(status as u8)
}

fn run() -> Result<Status, Failure> {
    match requests::request(env::args_os())? {
        Request::Print(text) => outputs::print(text.as_bytes()),
        Request::Table { page, table } => table::run(&page, table.as_deref()),
        Request::Convert { old, table } => convert::run(&old, table.as_deref()),
        Request::Readers { source, field } => readers::run(&source, field.as_deref()),
        Request::Cut { source, first, last, to } => cut::run(&source, &first, last.as_deref(), &to),
        Request::Put { into, from, before, to } => put::run(&into, &from, before.as_deref(), &to),
        Request::Read { source, packets, form } => read::run(&source, &packets, &form),
        Request::Bytes { source, packets, field, as_hex } => bytes::run(&source, &packets, &field, as_hex),
        Request::Check { files, deep, sort, json } => check::run(&files, deep, sort, json),
        Request::Watch { files, sort, json } => watch::run(&files, sort, json),
        Request::Explain { numbers } => numbers::run(&numbers),
        Request::Man => outputs::print(man::page().as_bytes()),
        Request::Completions(shell) => outputs::print(cli::completions(shell).as_bytes()),
    }
}
