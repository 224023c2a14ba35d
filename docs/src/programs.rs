//! Runs of a built program, in a folder of its own.

use std::ffi::OsStr;
use std::fs::File;
use std::io::Write;
use std::path::{Path, PathBuf};
use std::process::{Command, Stdio};
use std::time::Duration;

/// What a run of a program gave back.
pub struct Said {
    pub stdout: Vec<u8>,
    pub stderr: String,
    /// It ended by itself and said that all went well.
    pub well: bool,
}

/// A program, as the words that start it, and the folder that it is run in.
pub struct Program {
    words: Vec<String>,
    folder: PathBuf,
}

/// How long the other end of a pipe gets to read a piece before the next one is written.
const PAUSE: Duration = Duration::from_micros(300);

impl Program {
    /// The folder is new, and it is gone afterwards unless a difference was found.
    pub fn new(name: &str, words: Vec<String>) -> Program {
        let folder = std::env::temp_dir().join(format!("{name}-runs-{}", std::process::id()));
        std::fs::create_dir_all(&folder).expect("a folder for the runs");
        Program { words, folder }
    }

    pub fn folder(&self) -> &Path {
        &self.folder
    }

    pub fn run<A: AsRef<OsStr>>(&self, arguments: &[A], stdin: &[u8]) -> Said {
        self.run_in_pieces(arguments, stdin, stdin.len())
    }

    /// Standard input comes in pieces of this many bytes, so that reads are short.
    pub fn run_in_pieces<A: AsRef<OsStr>>(
        &self,
        arguments: &[A],
        stdin: &[u8],
        piece: usize,
    ) -> Said {
        let mut command = self.command(&[], arguments);
        feed(command.stdout(Stdio::piped()), stdin, piece)
    }

    /// Standard output is a device that has no room.
    pub fn run_with_full_output<A: AsRef<OsStr>>(&self, arguments: &[A], stdin: &[u8]) -> Said {
        let full = File::create("/dev/full").expect("a device without room");
        let mut command = self.command(&[], arguments);
        feed(command.stdout(full), stdin, stdin.len())
    }

    /// No file can grow beyond a kilobyte, as on a disk that is full. Not every program writes files.
    #[allow(dead_code)]
    pub fn run_with_full_disk<A: AsRef<OsStr>>(&self, arguments: &[A]) -> Said {
        let limit = ["sh", "-c", "trap '' XFSZ; ulimit -f 1; exec \"$@\"", "sh"];
        let mut command = self.command(&limit, arguments);
        feed(command.stdout(Stdio::piped()), &[], 0)
    }

    /// Some of standard input, output and error are closed, as a shell closes them. Not every program
    /// opens files.
    #[allow(dead_code)]
    pub fn run_with_closed<A: AsRef<OsStr>>(&self, closed: &str, arguments: &[A]) -> Said {
        let start = format!("exec \"$@\" {closed}");
        let mut command = self.command(&["sh", "-c", &start, "sh"], arguments);
        feed(command.stdout(Stdio::piped()), &[], 0)
    }

    fn command<A: AsRef<OsStr>>(&self, before: &[&str], arguments: &[A]) -> Command {
        let before = before.iter().map(|word| word.to_string());
        let mut words = before.chain(self.words.iter().cloned());
        let mut command = Command::new(words.next().expect("the words that start a program"));
        command.args(words).args(arguments);
        command.current_dir(&self.folder);
        command
    }
}

impl Drop for Program {
    fn drop(&mut self) {
        if std::thread::panicking() {
            eprintln!("the files of that run stay in {}", self.folder.display());
        } else {
            std::fs::remove_dir_all(&self.folder).expect("the folder of the runs is removed");
        }
    }
}

fn feed(command: &mut Command, stdin: &[u8], piece: usize) -> Said {
    command.stdin(Stdio::piped()).stderr(Stdio::piped());
    let mut child = command.spawn().expect("the program starts");
    let mut pipe = child.stdin.take().expect("a pipe");
    let output = std::thread::scope(|scope| {
        scope.spawn(move || {
            for part in stdin.chunks(piece.max(1)) {
                // A program that ends early leaves the rest unread.
                if pipe.write_all(part).is_err() {
                    break;
                }
                if part.len() < stdin.len() {
                    std::thread::sleep(PAUSE);
                }
            }
        });
        child.wait_with_output().expect("the program ends")
    });
    Said {
        stdout: output.stdout,
        stderr: String::from_utf8_lossy(&output.stderr).into_owned(),
        well: output.status.success(),
    }
}

/// Fails, with the first difference, unless a program gave the bytes that the reading gives.
pub fn hold(what: &str, product: &[u8], reading: &[u8]) {
    if product == reading {
        return;
    }
    let same = product
        .iter()
        .zip(reading)
        .take_while(|(a, b)| a == b)
        .count();
    let shown = |bytes: &[u8]| {
        let from = same.saturating_sub(40).min(bytes.len());
        bytes[from..bytes.len().min(same + 40)]
            .escape_ascii()
            .to_string()
    };
    panic!(
        "{what} differs from byte {same} on, of {} and {} bytes\nproduct: {}\nreading: {}",
        product.len(),
        reading.len(),
        shown(product),
        shown(reading)
    );
}
