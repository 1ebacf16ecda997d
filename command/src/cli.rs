//! The verbs and options, each with its help. Help, man page and completions are made from this list.

use clap::builder::{OsStringValueParser, PathBufValueParser};
use clap::{value_parser, Arg, ArgAction, Command, ValueHint};
use clap_complete::Shell;

pub const NAME: &str = "umarekoza";

/// What goes for all verbs, in paragraphs.
pub const NOTES: [&str; 5] = [
    "SOURCE is a page or a table: a file whose first byte is `A` is a page, any other a table; --page and --table say \
     it outright.",
    "FIELD is a label, a short name or, where no field has that name, an index from 0.",
    "A folder stands for the regular files in it, in the order of their names. `-` is standard input; a page is read \
     from there as it comes, piece by piece.",
    "Standard output has what was asked for: the listing or `refused N at P`, an object of JSON, a field's bytes. \
     Explanations go to standard error.",
    "Exit status: 0 accepted, 1 refused, 2 wrong arguments, or a file that cannot be read or written.",
];

const LINES: &str = "Each line is a packet in hexadecimal, named FILE:LINE; an empty line is an empty packet";

/// The whole command line.
pub fn command() -> Command {
    Command::new(NAME)
        .version(umarekoza::VERSION)
        .about("Reads packets by pages that describe them")
        .after_help(NOTES.join("\n"))
        .subcommand_required(true)
        .subcommands([
            table(),
            read(),
            bytes(),
            check(),
            readers(),
            cut(),
            put(),
            convert(),
            explain(),
            man(),
            completions_verb(),
        ])
}

/// What a shell reads to complete the command's words.
pub fn completions(shell: Shell) -> String {
    let mut script = Vec::new();
    clap_complete::generate(shell, &mut command(), NAME, &mut script);
    let script = String::from_utf8_lossy(&script).into_owned();
    match shell {
        Shell::Bash => script.split_inclusive('\n').map(words_to_complete).collect(),
        _ => script,
    }
}

/// A line of bash's completions without the names of arguments, such as `<PAGE>`, which are no words to be written.
fn words_to_complete(line: &str) -> String {
    let Some((start, words)) = line.split_once("opts=\"") else { return line.to_string() };
    let words: Vec<&str> = words
        .trim_end()
        .trim_end_matches('"')
        .split(' ')
        .filter(|word| !word.starts_with(['<', '[']))
        .collect();
    format!("{start}opts=\"{}\"\n", words.join(" "))
}

fn table() -> Command {
    Command::new("table")
        .about("Write the table of a page")
        .arg(file("page", "PAGE", "The page"))
        .arg(output())
}

fn convert() -> Command {
    Command::new("convert")
        .about("Write the new table of an old one, which does not keep how often a field is read")
        .arg(file("old", "OLD", "The old table"))
        .arg(output())
}

fn output() -> Arg {
    let output = Arg::new("output").short('o').long("output").value_name("TABLE").required(true);
    path(output).help("The file of the table; `-` is standard output, unless that is a terminal")
}

fn cut() -> Command {
    Command::new("cut")
        .about("Write the table of a page or table without some of its fields")
        .arg(file("source", "SOURCE", "The page or table"))
        .arg(field("first", "FIELD", "The field to cut out, or the first of a run").required(true))
        .arg(field("last", "LAST", "The last field of the run"))
        .args(edit_options())
        .args(sorts())
        .after_help(OF_CUT)
}

const OF_CUT: &str = "Later fields get the indexes that they then have, in what reads them too. A field that is left \
                      may not read one that is cut out: that is refused by 31, with all fields that read one.";

fn put() -> Command {
    Command::new("put")
        .about("Write the table of a page or table with the fields of another one put in")
        .arg(file("into", "INTO", "The table that they are put into, or its page"))
        .arg(file("from", "FROM", "The page or table whose fields are put in, all of them"))
        .arg(field("before", "FIELD", "Put them before this field of INTO, not at the end").long("before"))
        .args(edit_options())
        .arg(flag("page", "INTO and FROM are pages, whatever they begin with").conflicts_with("table"))
        .arg(flag("table", "INTO and FROM are tables, whatever they begin with"))
        .after_help(OF_PUT)
}

const OF_PUT: &str = "The fields of FROM read each other as before: what they read is renumbered, from the index on \
                      where the first of them is put. Later fields of INTO get the indexes that they then have, in \
                      what reads them too. NAME and the width of rows are those of INTO, whose rows the fields fill.";

/// Where a changed table goes, or that it is only told.
fn edit_options() -> Vec<Arg> {
    vec![
        output().required(false).required_unless_present("dry-run"),
        flag("dry-run", "Write nothing, and print what would change"),
        flag("json", "With --dry-run, print that as an object of JSON").requires("dry-run"),
    ]
}

fn field(id: &'static str, name: &'static str, help: &'static str) -> Arg {
    Arg::new(id).value_name(name).value_parser(OsStringValueParser::new()).help(help)
}

fn readers() -> Command {
    Command::new("readers")
        .about("Say how many places read each field: references in the expressions of other fields")
        .arg(file("source", "SOURCE", "The page or table"))
        .arg(field("field", "FIELD", "Print the number of that field alone"))
        .args(sorts())
}

fn read() -> Command {
    Command::new("read")
        .about("List the fields of packets")
        .arg(file("source", "SOURCE", "The page or table"))
        .arg(file("packets", "PACKET", "Packets, or folders of packets").num_args(1..))
        .args(packet_options())
        .arg(flag("lines", LINES))
        .arg(flag("json", "Print an object of JSON for each packet, one a line").conflicts_with("field"))
        .arg(field("field", "FIELD", ALONE).long("field"))
}

const ALONE: &str = "Print that field alone, a line for each packet: its value, or the bytes of a long field";

fn bytes() -> Command {
    Command::new("bytes")
        .about("Write the bytes of a field")
        .arg(file("source", "SOURCE", "The page or table"))
        .arg(file("packets", "PACKET", "The packet"))
        .arg(field("field", "FIELD", "The field").required(true))
        .args(packet_options())
        .arg(flag("to-hex", "Write the bytes in hexadecimal, on a line"))
}

fn check() -> Command {
    Command::new("check")
        .about("Say of pages and tables whether they are right")
        .arg(file("files", "FILE", "Pages and tables, or folders of them").num_args(1..))
        .arg(flag("recursive", "Go into the folders below too").short('r').conflicts_with("watch"))
        .arg(flag("watch", "Check a page again whenever its file changes, until interrupted"))
        .arg(flag("json", "Print an object of JSON for each file, one a line"))
        .args(sorts())
}

fn explain() -> Command {
    let numbers = Arg::new("numbers").value_name("N").num_args(0..).value_parser(value_parser!(u32));
    Command::new("explain")
        .about("Say what a refusal's number means and how to mend it")
        .arg(numbers.help("The numbers; all if none is given"))
}

fn man() -> Command {
    Command::new("man").about("Print the man page: umarekoza man | man -l -")
}

fn completions_verb() -> Command {
    let shells = value_parser!(Shell);
    Command::new("completions")
        .about("Print what a shell reads to complete the command's words")
        .arg(Arg::new("shell").value_name("SHELL").required(true).value_parser(shells).help("The shell"))
}

/// How packets are written, and what the source is.
fn packet_options() -> Vec<Arg> {
    let hex = "Packets are written in hexadecimal, or as xxd prints them";
    [vec![flag("hex", hex)], sorts()].concat()
}

fn sorts() -> Vec<Arg> {
    vec![
        flag("page", "The source is a page, whatever it begins with").conflicts_with("table"),
        flag("table", "The source is a table, whatever it begins with"),
    ]
}

fn flag(name: &'static str, help: &'static str) -> Arg {
    Arg::new(name).long(name).action(ArgAction::SetTrue).help(help)
}

/// An argument that names a file.
fn file(id: &'static str, name: &'static str, help: &'static str) -> Arg {
    path(Arg::new(id).value_name(name).required(true).help(help))
}

fn path(arg: Arg) -> Arg {
    arg.value_parser(PathBufValueParser::new()).value_hint(ValueHint::AnyPath)
}
