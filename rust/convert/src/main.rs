//! The command ./convert: BBCode forum posts to Carve text.

mod arguments;
mod explain;

use arguments::{Asked, Order, Source, To, HELP};
use carve::{Converted, Converter, Loss, Refusal, MAX_TEXT};
use explain::Style;
use std::fs::{self, File};
use std::io::{self, IsTerminal, Read, Write};
use std::path::Path;
use std::process::ExitCode;

/// From this many files on progress is shown.
const MANY: usize = 8;

/// What went wrong with a post.
enum Failure {
    Refused(Refusal),
    Io(io::Error),
}

impl From<io::Error> for Failure {
    fn from(error: io::Error) -> Failure {
        Failure::Io(error)
    }
}

fn main() -> ExitCode {
    match arguments::read(std::env::args_os().skip(1)) {
        Ok(Asked::Help) => {
            let _ = io::stdout().write_all(HELP.as_bytes());
            ExitCode::SUCCESS
        }
        Ok(Asked::Convert(order)) => ExitCode::from(run(&order)),
        Err(wrong) => {
            eprintln!("convert: {wrong}\n\n{HELP}");
            ExitCode::from(2)
        }
    }
}

/// Converts every post, and gives the exit status: the greatest that one of them asks for.
fn run(order: &Order) -> u8 {
    let mut progress = Progress::new(order.sources.len());
    if let To::Directory(directory) = &order.to {
        if let Err(error) = fs::create_dir_all(directory) {
            eprintln!("convert: {}: {error}", directory.display());
            return 2;
        }
    }
    let mut converter = Converter::new();
    let mut status = 0;
    for source in &order.sources {
        let name = source.name();
        progress.next(&name);
        match convert(&mut converter, source, &order.to) {
            Ok(losses) => losses.iter().for_each(|loss| progress.say(&lost(&name, loss))),
            Err(Failure::Refused(refusal)) => {
                progress.say(&format!("{name}: refused ({}): {refusal}", refusal.number()));
                status = status.max(1);
            }
            // Whoever read the text has read enough.
            Err(Failure::Io(error)) if error.kind() == io::ErrorKind::BrokenPipe => break,
            Err(Failure::Io(error)) => {
                progress.say(&format!("{name}: {error}"));
                status = 2;
            }
        }
    }
    progress.end();
    status
}

/// Converts one post, writes it, and gives its losses.
fn convert(converter: &mut Converter, source: &Source, to: &To) -> Result<Vec<Loss>, Failure> {
    let post = read(source)?;
    let converted = converter.convert(&post).map_err(Failure::Refused)?;
    match to {
        To::Text => io::stdout().write_all(converted.text.as_bytes())?,
        To::Explanation => io::stdout().write_all(explain(&post, &converted).as_bytes())?,
        To::Directory(directory) => write_whole(&directory.join(source.converted_name()), source, &converted)?,
    }
    io::stdout().flush()?;
    Ok(converted.losses)
}

/// The post, or as much of it as tells that it is too long.
fn read(source: &Source) -> io::Result<Vec<u8>> {
    let mut post = Vec::new();
    let most = MAX_TEXT as u64 + 1;
    match source {
        Source::Stdin => io::stdin().lock().take(most).read_to_end(&mut post)?,
        Source::File(path) => File::open(path)?.take(most).read_to_end(&mut post)?,
    };
    Ok(post)
}

fn explain(post: &[u8], converted: &Converted) -> String {
    let colour = io::stdout().is_terminal() && std::env::var_os("NO_COLOR").is_none_or(|value| value.is_empty());
    explain::explanation(post, converted, if colour { Style::Colour } else { Style::Signs })
}

/// Writes a file of its own beside the one that is meant and then renames it, so that no half of a text is ever left behind.
fn write_whole(path: &Path, source: &Source, converted: &Converted) -> io::Result<()> {
    if let (Source::File(from), Ok(to)) = (source, path.canonicalize()) {
        if from.canonicalize()? == to {
            return Err(io::Error::new(io::ErrorKind::AlreadyExists, "would be written over by its own converted text"));
        }
    }
    let mut name = std::ffi::OsString::from(".");
    name.push(path.file_name().unwrap_or_default());
    name.push(format!(".{}", std::process::id()));
    let part = path.with_file_name(name);
    let written = File::create(&part).and_then(|mut file| file.write_all(converted.text.as_bytes())).and_then(|()| fs::rename(&part, path));
    if written.is_err() {
        let _ = fs::remove_file(&part);
    }
    written
}

/// A loss in words.
fn lost(name: &str, loss: &Loss) -> String {
    let Loss { quote, line, unnamed, field } = loss;
    if *unnamed {
        format!("{name}:{line}: lost the words {field:?} beside the name of quote {quote}")
    } else {
        format!("{name}:{line}: lost the field {field} of quote {quote}")
    }
}

/// A line on a terminal that says how far we are, and gives way to whatever else is said.
struct Progress {
    all: usize,
    done: usize,
    shown: bool,
}

impl Progress {
    fn new(all: usize) -> Progress {
        Progress { all, done: 0, shown: all >= MANY && io::stderr().is_terminal() }
    }

    fn next(&mut self, name: &str) {
        if self.shown {
            eprint!("\r\x1b[K{}/{} {name}", self.done, self.all);
        }
        self.done += 1;
    }

    fn say(&self, words: &str) {
        if self.shown {
            eprint!("\r\x1b[K");
        }
        eprintln!("{words}");
    }

    fn end(&self) {
        if self.shown {
            eprintln!("\r\x1b[K{} posts", self.all);
        }
    }
}
