//! The command as a user meets it: what it writes where, and its exit status.

use std::fs;
use std::io::Write;
use std::path::{Path, PathBuf};
use std::process::{Command, Output, Stdio};

const THREAD: &str = "[quote=Ann;7 rank=3]Seed [b]late[/b][/quote]";
const THREAD_TEXT: &str = "\n\n> Seed *late*\n^ Ann;7\n\n";

/// A folder of its own, gone when the test ends.
struct Folder(PathBuf);

impl Folder {
    fn new(test: &str) -> Folder {
        let path = std::env::temp_dir().join(format!("convert-{test}-{}", std::process::id()));
        let _ = fs::remove_dir_all(&path);
        fs::create_dir_all(&path).expect("a folder");
        Folder(path)
    }

    fn put(&self, name: &str, post: impl AsRef<[u8]>) -> &Folder {
        fs::write(self.0.join(name), post).expect("a file");
        self
    }

    fn run(&self, words: &[&str]) -> Output {
        self.command(words).output().expect("the command runs")
    }

    fn command(&self, words: &[&str]) -> Command {
        let mut command = Command::new(env!("CARGO_BIN_EXE_convert"));
        command.args(words).current_dir(&self.0);
        command
    }

    fn names(&self, folder: &str) -> Vec<String> {
        let mut names: Vec<String> = fs::read_dir(self.0.join(folder))
            .expect("a folder")
            .map(|entry| entry.expect("an entry").file_name().into_string().expect("a name"))
            .collect();
        names.sort();
        names
    }
}

impl Drop for Folder {
    fn drop(&mut self) {
        let _ = fs::remove_dir_all(&self.0);
    }
}

fn told(output: &Output) -> (Option<i32>, String, String) {
    let text = |bytes: &[u8]| String::from_utf8(bytes.to_vec()).expect("UTF-8");
    (output.status.code(), text(&output.stdout), text(&output.stderr))
}

#[test]
fn a_post_goes_to_standard_output_and_its_loss_to_standard_error() {
    let folder = Folder::new("thread");
    let output = folder.put("thread.bb", THREAD).run(&["thread.bb"]);
    assert_eq!(told(&output), (Some(0), THREAD_TEXT.into(), "thread.bb:1: lost the field rank of quote 1\n".into()));
}

#[test]
fn unnamed_losses_are_quoted() {
    let folder = Folder::new("unnamed");
    let output = folder.put("p", "\n\n[quote=name=Ann guest\nof ours]x").run(&["p"]);
    assert_eq!(told(&output).2, "p:3: lost the words \"guest of ours\" beside the name of quote 1\n");
}

#[test]
fn several_posts_follow_one_another() {
    let folder = Folder::new("several");
    let output = folder.put("a", "[b]a[/b]\n").put("b", "[i]b[/i]\n").run(&["a", "b"]);
    assert_eq!(told(&output), (Some(0), "*a*\n/b/\n".into(), String::new()));
}

#[test]
fn standard_input_is_a_post() {
    let folder = Folder::new("stdin");
    let mut child = folder.command(&["-"]).stdin(Stdio::piped()).stdout(Stdio::piped()).spawn().expect("the command runs");
    child.stdin.take().expect("standard input").write_all(b"[u]x[/u]").expect("taken");
    assert_eq!(told(&child.wait_with_output().expect("an answer")).1, "_x_");
}

#[test]
fn a_refused_post_is_1_and_the_others_are_converted() {
    let folder = Folder::new("refused");
    let output = folder.put("bad", b"\xFF").put("deep", "[list]".repeat(65)).put("good", "x").run(&["bad", "deep", "good"]);
    let (status, text, said) = told(&output);
    assert_eq!((status, text.as_str()), (Some(1), "x"));
    assert_eq!(said, "bad: refused (3): the text is not UTF-8\ndeep: refused (5): a quote or a list opens while 64 of them are open\n");
}

#[test]
fn a_text_too_long_is_refused_and_the_longest_is_not() {
    let folder = Folder::new("long");
    folder.put("long", "a".repeat(262_145)).put("longest", "a".repeat(262_144));
    let (status, text, said) = told(&folder.run(&["long"]));
    assert_eq!((status, text.len(), said.as_str()), (Some(1), 0, "long: refused (1): the text is longer than 262,144 bytes\n"));
    let (status, text, _) = told(&folder.run(&["longest"]));
    assert_eq!((status, text.len()), (Some(0), 262_144));
}

#[test]
fn a_missing_file_is_2_and_the_others_are_converted() {
    let folder = Folder::new("missing");
    let (status, text, said) = told(&folder.put("good", "x").put("bad", "\0").run(&["none", "good", "bad"]));
    assert_eq!((status, text.as_str()), (Some(2), "x"));
    assert!(said.starts_with("none: ") && said.contains("\nbad: refused (4): "), "{said}");
}

#[test]
fn a_directory_takes_the_texts() {
    let folder = Folder::new("directory");
    folder.put("a.bb", THREAD).put("b.txt", "[i]b[/i]").put("bad.bb", "\0").put("c", "c");
    let (status, text, _) = told(&folder.run(&["-o", "out/new", "a.bb", "b.txt", "bad.bb", "c"]));
    assert_eq!((status, text.as_str()), (Some(1), ""));
    assert_eq!(folder.names("out/new"), ["a.crv", "b.crv", "c.crv"]);
    let read = |name: &str| fs::read_to_string(folder.0.join("out/new").join(name)).expect("a text");
    assert_eq!((read("a.crv").as_str(), read("b.crv").as_str()), (THREAD_TEXT, "/b/"));
    // Written over, with nothing left beside it.
    let again = folder.put("a.bb", "a").run(&["-o", "out/new", "a.bb"]);
    assert_eq!((told(&again).0, read("a.crv").as_str(), folder.names("out/new").len()), (Some(0), "a", 3));
}

#[test]
fn a_text_that_cannot_be_written_is_2_and_leaves_nothing() {
    let folder = Folder::new("unwritable");
    folder.put("a.bb", "a").put("b.crv", "[b]b[/b]");
    fs::create_dir_all(folder.0.join("out/a.crv")).expect("a folder in the way");
    assert_eq!(told(&folder.run(&["-o", "out", "a.bb"])).0, Some(2));
    assert_eq!(folder.names("out"), ["a.crv"]);
    // A post is never written over by its own text.
    assert_eq!(told(&folder.run(&["-o", ".", "b.crv"])).0, Some(2));
    assert_eq!(fs::read_to_string(folder.0.join("b.crv")).expect("the post"), "[b]b[/b]");
    assert_eq!(told(&folder.run(&["-o", "a.bb", "b.crv"])).0, Some(2));
}

#[test]
fn usage() {
    let folder = Folder::new("usage");
    let (status, text, said) = told(&folder.run(&["--help"]));
    assert!(status == Some(0) && text.contains("--explain") && said.is_empty());
    for words in [&[][..], &["-q"], &["-o"], &["-o", "d", "x.a", "x.b"]] {
        let (status, text, said) = told(&folder.run(words));
        assert!(status == Some(2) && text.is_empty() && said.starts_with("convert: "), "{words:?}: {said}");
    }
    assert!(!Path::new(&folder.0.join("d")).exists());
}

#[test]
fn an_explanation_tells_bytes_apart_without_colours_in_a_pipe() {
    let folder = Folder::new("explain");
    let (status, text, _) = told(&folder.put("a", "[b]x[/b]").run(&["--explain", "a"]));
    assert_eq!((status, text.as_str()), (Some(0), "[-[b]-]{+*+}x[-[/b]-]{+*+}\n-- 8 bytes: 1 copied, 7 taken out; 2 written\n"));
}
