//! What the command was asked to do.

use std::path::{Path, PathBuf};

/// What `--help` shows; the script ./convert shows it too, before anything is built.
pub const HELP: &str = include_str!("help.txt");

#[derive(Debug, PartialEq, Eq)]
pub enum Asked {
    Help,
    Convert(Order),
}

#[derive(Debug, PartialEq, Eq)]
pub struct Order {
    pub sources: Vec<Source>,
    pub to: To,
}

#[derive(Debug, PartialEq, Eq)]
pub enum To {
    Text,
    Explanation,
    Directory(PathBuf),
}

#[derive(Debug, PartialEq, Eq)]
pub enum Source {
    Stdin,
    File(PathBuf),
}

impl Source {
    pub fn name(&self) -> String {
        match self {
            Source::Stdin => "-".into(),
            Source::File(path) => path.display().to_string(),
        }
    }

    /// The name of its converted file.
    pub fn converted_name(&self) -> PathBuf {
        let stem = match self {
            Source::Stdin => Path::new("stdin").as_os_str(),
            Source::File(path) => path.file_stem().unwrap_or(path.as_os_str()),
        };
        let mut name = stem.to_os_string();
        name.push(".crv");
        name.into()
    }
}

/// Reads the arguments, or says in words what is wrong with them.
pub fn read(arguments: impl IntoIterator<Item = std::ffi::OsString>) -> Result<Asked, String> {
    let (mut sources, mut directory, mut explain, mut only_files) = (Vec::new(), None, false, false);
    let mut arguments = arguments.into_iter();
    while let Some(argument) = arguments.next() {
        match argument.to_str() {
            Some("-") => sources.push(Source::Stdin),
            _ if only_files => sources.push(Source::File(argument.into())),
            Some("--") => only_files = true,
            Some("--help" | "-h") => return Ok(Asked::Help),
            Some("--explain") => explain = true,
            Some("-o") => match arguments.next() {
                Some(to) if directory.is_none() => directory = Some(PathBuf::from(to)),
                Some(_) => return Err("-o is given twice".into()),
                None => return Err("-o wants a directory".into()),
            },
            Some(option) if option.starts_with('-') => return Err(format!("no option {option}")),
            _ => sources.push(Source::File(argument.into())),
        }
    }
    if sources.is_empty() {
        return Err("no file is named".into());
    }
    let to = match (directory, explain) {
        (Some(_), true) => return Err("--explain writes to standard output, so -o does not go with it".into()),
        (Some(directory), false) => To::Directory(directory),
        (None, true) => To::Explanation,
        (None, false) => To::Text,
    };
    if let To::Directory(_) = to {
        for (i, source) in sources.iter().enumerate() {
            if let Some(other) = sources[..i].iter().find(|other| other.converted_name() == source.converted_name()) {
                return Err(format!("{} and {} would both become {}", other.name(), source.name(), source.converted_name().display()));
            }
        }
    }
    Ok(Asked::Convert(Order { sources, to }))
}

#[cfg(test)]
mod tests {
    use super::*;

    fn asked(words: &[&str]) -> Result<Asked, String> {
        read(words.iter().map(Into::into))
    }

    #[test]
    fn files_and_where_they_go() {
        let order = |words: &[&str]| match asked(words) {
            Ok(Asked::Convert(order)) => order,
            other => panic!("{other:?}"),
        };
        assert_eq!(order(&["a.bb", "-"]), Order { sources: vec![Source::File("a.bb".into()), Source::Stdin], to: To::Text });
        assert_eq!(order(&["-o", "out", "a.bb"]).to, To::Directory("out".into()));
        assert_eq!(order(&["a.bb", "--explain"]).to, To::Explanation);
        assert_eq!(order(&["--", "--explain"]).sources, [Source::File("--explain".into())]);
    }

    #[test]
    fn bad_usage_is_said_in_words() {
        for (words, part) in [
            (&[][..], "no file"),
            (&["-x"], "no option -x"),
            (&["-o"], "wants a directory"),
            (&["-o", "a", "-o", "b", "c"], "twice"),
            (&["-o", "a", "--explain", "c"], "does not go with it"),
            (&["-o", "a", "x/p.bb", "y/p.txt"], "both become p.crv"),
        ] {
            let said = asked(words).expect_err("refused");
            assert!(said.contains(part), "{words:?}: {said}");
        }
    }

    #[test]
    fn the_last_extension_gives_way() {
        let name = |path: &str| Source::File(path.into()).converted_name();
        assert_eq!(name("x/thread.bb"), Path::new("thread.crv"));
        assert_eq!(name("a.b.txt"), Path::new("a.b.crv"));
        assert_eq!(name("plain"), Path::new("plain.crv"));
        assert_eq!(Source::Stdin.converted_name(), Path::new("stdin.crv"));
    }
}
