//! The program `second`: answers requests, writes requests and shelves for comparing two implementations,
//! makes shelves of their texts, those of the worked day among them, and rewrites what is stored in an old form.

use std::io::{self, BufWriter, Write};
use std::path::PathBuf;
use std::process::ExitCode;

use second::kinds::Kind;
use second::shelf::Side;
use second::{generate, replay, rewrite, shelves, tables, words};

const HELP: &str = "\
second replay
    reads requests from standard input and answers each on a line
second generate SEED COUNT [KIND]
    writes COUNT lines of requests, good, refused and broken, of all kinds mixed, or only of
    KIND, which is the name of a request; the same SEED gives the same lines, an odd one
    leaves off the last newline, and every 1,000th line is a very long one
second shelves FOLDER [TO]
    makes public.shelf, private.shelf and trial.shelf from public.txt, private.txt and trial.txt
    in FOLDER, and writes them there or to the folder TO
second pack private|public
    reads the text of a shelf from standard input and writes the shelf; nothing is written unless the
    whole text is right
second shelf-samples COUNT SEED FOLDER
    writes COUNT well-formed shelves, with records that are accepted and others, into FOLDER, each as
    NNNNN-private.shelf or NNNNN-public.shelf; the same SEED gives the same shelves
second tables
    reads the text of 5G.212 from standard input and counts the numbers in each row of its LDPC
    tables, and lists the rows that are mended, as docs/TABLES.md has them
second public
    reads the same and writes shelves/public.txt
second trial
    reads the same and writes shelves/trial.txt
second rewrite OLD NEW
    rewrites what is stored with records of the old form, whose header is kb, m, t: OLD is a
    shelf, or a text of requests; NEW is written whole or not at all
second help
    writes this

docs/REQUESTS.md gives the form of requests and answers.
";

/// What the words after the program's name ask for.
enum Command {
    Replay,
    Generate {
        kinds: Vec<&'static Kind>,
        seed: u64,
        count: u64,
    },
    Shelves {
        from: PathBuf,
        to: PathBuf,
    },
    Pack(Side),
    ShelfSamples {
        count: u64,
        seed: u64,
        folder: PathBuf,
    },
    Tables,
    Public,
    Trial,
    Rewrite {
        old: PathBuf,
        new: PathBuf,
    },
    Help,
}

fn main() -> ExitCode {
    let arguments: Vec<String> = std::env::args_os()
        .skip(1)
        .map(|word| word.to_string_lossy().into_owned())
        .collect();
    let Some(command) = command(&arguments) else {
        eprintln!("second: no such command; `second help` says what there is");
        return ExitCode::from(2);
    };
    match run(&command) {
        Ok(()) => ExitCode::SUCCESS,
        Err(error) => {
            eprintln!("second: {error}");
            ExitCode::FAILURE
        }
    }
}

fn command(arguments: &[String]) -> Option<Command> {
    let arguments: Vec<&str> = arguments.iter().map(String::as_str).collect();
    match arguments[..] {
        ["replay"] => Some(Command::Replay),
        ["generate", seed, count] => generate(seed, count, None),
        ["generate", seed, count, kind] => generate(seed, count, Some(kind)),
        ["shelves", folder] => Some(shelves(folder, folder)),
        ["shelves", from, to] => Some(shelves(from, to)),
        ["pack", "private"] => Some(Command::Pack(Side::Private)),
        ["pack", "public"] => Some(Command::Pack(Side::Public)),
        ["shelf-samples", count, seed, folder] => shelf_samples(count, seed, folder),
        ["tables"] => Some(Command::Tables),
        ["public"] => Some(Command::Public),
        ["trial"] => Some(Command::Trial),
        ["rewrite", old, new] => Some(Command::Rewrite {
            old: old.into(),
            new: new.into(),
        }),
        ["help"] => Some(Command::Help),
        _ => None,
    }
}

fn generate(seed: &str, count: &str, kind: Option<&str>) -> Option<Command> {
    Some(Command::Generate {
        kinds: generate::kinds(kind)?,
        seed: words::number(seed.as_bytes()).ok()?,
        count: words::number(count.as_bytes()).ok()?,
    })
}

fn shelves(from: &str, to: &str) -> Command {
    Command::Shelves {
        from: from.into(),
        to: to.into(),
    }
}

fn shelf_samples(count: &str, seed: &str, folder: &str) -> Option<Command> {
    Some(Command::ShelfSamples {
        count: words::number(count.as_bytes()).ok()?,
        seed: words::number(seed.as_bytes()).ok()?,
        folder: folder.into(),
    })
}

fn run(command: &Command) -> io::Result<()> {
    let mut output = BufWriter::new(io::stdout().lock());
    match command {
        Command::Replay => replay::replay(&mut io::stdin().lock(), &mut output)?,
        Command::Generate { kinds, seed, count } => {
            generate::generate(kinds, *seed, *count, &mut output)?;
        }
        Command::Shelves { from, to } => shelves::make(from, to)?,
        Command::Pack(side) => {
            let shelf = shelves::pack(&io::read_to_string(io::stdin())?, *side)?;
            output.write_all(&shelf)?;
        }
        Command::ShelfSamples {
            count,
            seed,
            folder,
        } => generate::samples::write(*count, *seed, folder)?,
        Command::Tables => tables::counts(&io::read_to_string(io::stdin())?, &mut output)?,
        Command::Public => tables::public(&io::read_to_string(io::stdin())?, &mut output)?,
        Command::Trial => tables::trial(&io::read_to_string(io::stdin())?, &mut output)?,
        Command::Rewrite { old, new } => eprintln!("{}", rewrite::rewrite(old, new)?),
        Command::Help => output.write_all(HELP.as_bytes())?,
    }
    // A dropped BufWriter would hide a failed write.
    output.flush()
}
