//! Starting the real program on some input, and what came of it.

use std::io::{self, ErrorKind, Write};
use std::os::fd::OwnedFd;
use std::os::unix::net::UnixDatagram;
use std::process::{Child, Command, ExitStatus, Stdio};

/// More than any line has, and more than any one write of the program.
const ROOM: usize = 1 << 17;

/// The words that start the program.
pub struct Program {
    pub words: Vec<String>,
}

/// How a run ended, and what each write had, to standard output or standard error.
#[derive(PartialEq)]
pub struct Ran {
    pub status: ExitStatus,
    pub writes: Vec<Vec<u8>>,
}

impl Program {
    /// A command of its own, to which redirections can be added.
    pub fn command(&self) -> Command {
        let mut command = Command::new(&self.words[0]);
        command.args(&self.words[1..]);
        command
    }

    /// The same behind redirections of the shell, as `<&-`.
    pub fn redirected(&self, redirections: &str) -> Command {
        let mut command = Command::new("sh");
        command.args(["-c", &format!("exec \"$@\" {redirections}"), "sh"]);
        command.args(&self.words);
        command
    }

    /// Runs it with this sheet on a pipe.
    pub fn run(&self, sheet: &[u8]) -> io::Result<Ran> {
        watched(self.command().stdin(Stdio::piped()), |child| {
            feed(child, [sheet])
        })
    }
}

/// Writes the pieces to the program's input and closes it. The program may end before it has read
/// all, and then the rest has no reader.
pub fn feed<'a>(child: &mut Child, pieces: impl IntoIterator<Item = &'a [u8]>) -> io::Result<()> {
    let mut input = child.stdin.take().expect("its input is a pipe");
    for piece in pieces {
        match input.write_all(piece) {
            Err(error) if error.kind() == ErrorKind::BrokenPipe => break,
            written => written?,
        }
    }
    Ok(())
}

/// Runs a command whose writes are kept apart: a datagram socket takes each one whole. A write of no
/// byte, as valgrind makes one at its end, is none.
pub fn watched(
    command: &mut Command,
    talk: impl FnOnce(&mut Child) -> io::Result<()>,
) -> io::Result<Ran> {
    let (ours, theirs) = UnixDatagram::pair()?;
    let theirs: OwnedFd = theirs.into();
    command.stderr(theirs.try_clone()?).stdout(theirs);
    let mut child = command.spawn()?;
    talk(&mut child)?;
    let status = child.wait()?;
    ours.set_nonblocking(true)?;
    let mut writes = vec![];
    let mut room = vec![0; ROOM];
    while let Ok(count) = ours.recv(&mut room) {
        writes.push(room[..count].to_vec());
    }
    writes.retain(|write| !write.is_empty());
    Ok(Ran { status, writes })
}

/// A text in quotation marks. Of a long one, its front.
pub fn shown(text: &str) -> String {
    match text.char_indices().nth(300) {
        None => format!("{text:?}"),
        Some((end, _)) => format!("{:?} .. ({} bytes)", &text[..end], text.len()),
    }
}

impl Ran {
    /// Whether it ended as it should and wrote this line with one write, and nothing else.
    pub fn wrote(&self, line: &str) -> bool {
        let [write] = self.writes.as_slice() else {
            return false;
        };
        let text = write.strip_suffix(b"\n");
        self.status.success() && text == Some(line.as_bytes())
    }

    /// What is to be said of it, in one line.
    pub fn description(&self) -> String {
        let writes: Vec<String> = self
            .writes
            .iter()
            .map(|write| shown(&String::from_utf8_lossy(write)))
            .collect();
        let writes = match writes.len() {
            0 => "nothing".to_string(),
            _ => writes.join(", "),
        };
        format!("{writes} ({})", self.status)
    }
}
