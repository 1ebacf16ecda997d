//! A command line as a request.

use crate::inputs::Input;
use crate::packets::Packets;
use crate::sources::{Sort, SourceName};
use crate::{cli, names, Failure};
use clap::error::ErrorKind;
use clap::ArgMatches;
use clap_complete::Shell;
use std::ffi::OsString;
use std::path::PathBuf;

pub enum Request {
    /// Help, or the version.
    Print(String),
    /// Without a table, to standard output.
    Table {
        page: Input,
        table: Option<PathBuf>,
    },
    Convert {
        old: Input,
        table: Option<PathBuf>,
    },
    Readers {
        source: SourceName,
        field: Option<OsString>,
    },
    /// One field without a last one.
    Cut {
        source: SourceName,
        first: OsString,
        last: Option<OsString>,
        to: Delivery,
    },
    /// At the end where no field is named.
    Put {
        into: SourceName,
        from: SourceName,
        before: Option<OsString>,
        to: Delivery,
    },
    Read {
        source: SourceName,
        packets: Packets,
        form: Form,
    },
    Bytes {
        source: SourceName,
        packets: Packets,
        field: OsString,
        as_hex: bool,
    },
    Check {
        files: Vec<Input>,
        deep: bool,
        sort: Sort,
        json: bool,
    },
    Watch {
        files: Vec<Input>,
        sort: Sort,
        json: bool,
    },
    Explain {
        numbers: Vec<u32>,
    },
    Man,
    Completions(Shell),
}

/// What becomes of a changed table.
pub enum Delivery {
    /// It is written to a file, or to standard output.
    Written(Option<PathBuf>),
    /// What would change is told, for a person or as JSON.
    Told { json: bool },
}

/// How a packet's fields are printed.
pub enum Form {
    Listing,
    Json,
    /// One field alone.
    Field(OsString),
}

/// The request of a command line, which begins with the command's own name.
pub fn request(words: impl Iterator<Item = OsString>) -> Result<Request, Failure> {
    let matches = match cli::command().try_get_matches_from(words) {
        Ok(matches) => matches,
        Err(error) if matches!(error.kind(), ErrorKind::DisplayHelp | ErrorKind::DisplayVersion) => {
            return Ok(Request::Print(error.to_string()));
        }
        Err(error) => return Err(wrong(&error.to_string())),
    };
    let (verb, matches) = matches.subcommand().expect("clap asks for a verb");
    let request = request_of(verb, matches);
    one_standard_input(&request)?;
    Ok(request)
}

fn request_of(verb: &str, matches: &ArgMatches) -> Request {
    match verb {
        "table" => Request::Table { page: input(matches, "page"), table: output(matches) },
        "convert" => Request::Convert { old: input(matches, "old"), table: output(matches) },
        "readers" => Request::Readers { source: source(matches), field: matches.get_one("field").cloned() },
        "cut" => Request::Cut {
            source: source(matches),
            first: matches.get_one::<OsString>("first").cloned().unwrap_or_default(),
            last: matches.get_one("last").cloned(),
            to: delivery(matches),
        },
        "put" => Request::Put {
            into: SourceName { input: input(matches, "into"), sort: sort(matches) },
            from: SourceName { input: input(matches, "from"), sort: sort(matches) },
            before: matches.get_one("before").cloned(),
            to: delivery(matches),
        },
        "read" => Request::Read { source: source(matches), packets: packets(matches), form: form(matches) },
        "bytes" => Request::Bytes {
            source: source(matches),
            packets: packets(matches),
            field: matches.get_one::<OsString>("field").cloned().unwrap_or_default(),
            as_hex: matches.get_flag("to-hex"),
        },
        "check" if matches.get_flag("watch") => Request::Watch {
            files: inputs(matches, "files"),
            sort: sort(matches),
            json: matches.get_flag("json"),
        },
        "check" => Request::Check {
            files: inputs(matches, "files"),
            deep: matches.get_flag("recursive"),
            sort: sort(matches),
            json: matches.get_flag("json"),
        },
        "explain" => {
            Request::Explain { numbers: matches.get_many("numbers").into_iter().flatten().copied().collect() }
        }
        "man" => Request::Man,
        _ => Request::Completions(*matches.get_one("shell").expect("clap asks for a shell")),
    }
}

/// The file of a table; none for standard output.
fn output(matches: &ArgMatches) -> Option<PathBuf> {
    matches.get_one::<PathBuf>("output").filter(|path| path.as_os_str() != "-").cloned()
}

fn delivery(matches: &ArgMatches) -> Delivery {
    if matches.get_flag("dry-run") {
        return Delivery::Told { json: matches.get_flag("json") };
    }
    Delivery::Written(output(matches))
}

fn source(matches: &ArgMatches) -> SourceName {
    SourceName { input: input(matches, "source"), sort: sort(matches) }
}

fn sort(matches: &ArgMatches) -> Sort {
    match (matches.get_flag("page"), matches.get_flag("table")) {
        (true, _) => Sort::Page,
        (_, true) => Sort::Table,
        _ => Sort::ByFirstByte,
    }
}

fn packets(matches: &ArgMatches) -> Packets {
    let lines = matches.try_contains_id("lines").is_ok() && matches.get_flag("lines");
    Packets { inputs: inputs(matches, "packets"), hex: matches.get_flag("hex"), lines }
}

fn form(matches: &ArgMatches) -> Form {
    match matches.get_one::<OsString>("field") {
        Some(field) => Form::Field(field.clone()),
        None if matches.get_flag("json") => Form::Json,
        None => Form::Listing,
    }
}

fn inputs(matches: &ArgMatches, id: &str) -> Vec<Input> {
    matches.get_many::<PathBuf>(id).into_iter().flatten().map(|path| Input::named(path)).collect()
}

fn input(matches: &ArgMatches, id: &str) -> Input {
    inputs(matches, id).pop().expect("clap asks for it")
}

/// Standard input can be read once only.
fn one_standard_input(request: &Request) -> Result<(), Failure> {
    let files: Vec<&Input> = match request {
        Request::Read { source, packets, .. } | Request::Bytes { source, packets, .. } => {
            packets.inputs.iter().chain([&source.input]).collect()
        }
        Request::Put { into, from, .. } => vec![&into.input, &from.input],
        Request::Check { files, .. } => files.iter().collect(),
        _ => Vec::new(),
    };
    if files.into_iter().filter(|file| **file == Input::Standard).count() > 1 {
        return Err(Failure::Said("standard input `-` can stand there once only".to_string()));
    }
    Ok(())
}

/// The failure of wrong arguments, whose words may hold anything.
fn wrong(message: &str) -> Failure {
    let lines: Vec<String> =
        message.trim_end().split('\n').map(|line| names::shown(line.as_bytes())).collect();
    let message = lines.join("\n");
    Failure::Said(message.strip_prefix("error: ").unwrap_or(&message).to_string())
}
