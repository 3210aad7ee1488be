//! How the program deals with its input and output: the cases that the requirements name, input in every
//! shape, and output that is closed, full or gone. Each must end in time, and write one line with one
//! write where there is somewhere to write.

use crate::kinds::{digest_of, draw_of, values};
use crate::program::{Program, Ran, feed, shown, watched};
use crate::reading::{self, Header};
use cases::Random;
use oracle::{field, sponge};
use std::fs::File;
use std::io::{self, Read, Write};
use std::process::{Command, Stdio};
use std::time::Duration;

/// What went wrong, or nothing.
type Verdict = Result<(), String>;

type Test = (&'static str, fn(&Program) -> Verdict);

const TESTS: [Test; 22] = [
    ("digest of the empty list", empty_list),
    ("no index, no allowance", |it| {
        line(it, b"\x14\x40\0\0\0\0", "draw 0")
    }),
    ("one index, no allowance", |it| {
        line(it, b"\x14\x40\0\0\x10\0", "refused 6")
    }),
    ("ten elements, three indices below 4", three_indices),
    ("empty input", |it| line(it, b"", "refused 4")),
    ("the largest sheet", |it| sheet_line(it, &largest())),
    ("4097 elements", |it| {
        line(it, &digest_of(vec![0; 4097]).bytes(), "refused 5")
    }),
    ("one byte at a time", byte_by_byte),
    ("pieces of many sizes", in_pieces),
    ("input from a file", from_file),
    ("input closed", |it| redirected(it, "<&-", "refused 4")),
    ("input that can't be read", |it| {
        redirected(it, "0>/dev/null", "refused 4")
    }),
    ("input a directory", |it| redirected(it, "</", "refused 4")),
    ("input a device without end", |it| {
        redirected(it, "</dev/zero", "refused 5")
    }),
    ("input a pipe without end", endless),
    ("output a file", to_file),
    ("output a pipe read late", late_reader),
    ("output closed", |it| silent(it.redirected(">&-"))),
    ("output that can't be written", |it| {
        silent(it.redirected("1</dev/null"))
    }),
    ("output full", |it| silent(it.redirected(">/dev/full"))),
    ("output with no reader", no_reader),
    ("output with no reader, no signal", no_reader_no_signal),
];

/// Runs every test and says which failed. Whether none did.
pub fn run(program: &Program) -> bool {
    let mut failed = 0;
    for (name, test) in TESTS {
        if let Err(reason) = test(program) {
            println!("behaviour: {name}: {reason}");
            failed += 1;
        }
    }
    println!("behaviour: {} tests, {failed} failed", TESTS.len());
    failed == 0
}

fn text(error: io::Error) -> String {
    error.to_string()
}

/// The run wrote this line, with one write, and nothing else.
fn wrote(ran: io::Result<Ran>, line: &str) -> Verdict {
    let ran = ran.map_err(text)?;
    if ran.wrote(line) {
        return Ok(());
    }
    Err(format!("wanted {}, got {}", shown(line), ran.description()))
}

fn line(program: &Program, sheet: &[u8], line: &str) -> Verdict {
    wrote(program.run(sheet), line)
}

fn sheet_line(program: &Program, sheet: &[u8]) -> Verdict {
    line(program, sheet, &reading::read(sheet).to_string())
}

fn redirected(program: &Program, redirections: &str, line: &str) -> Verdict {
    wrote(
        watched(&mut program.redirected(redirections), |_| Ok(())),
        line,
    )
}

fn empty_list(program: &Program) -> Verdict {
    let digest = sponge::hash_varlen(&[]).map(|word| field::value(word).to_string());
    line(
        program,
        &[0x10, 0, 0, 0, 0, 0],
        &format!("digest {}", digest.join(" ")),
    )
}

fn three_indices(program: &Program) -> Verdict {
    let head = [0x14, 0x40, 0x0a, 0x00, 0x30, 0x04];
    let wanted = Header {
        version: 1,
        job: 1,
        log2: 2,
        elements: 10,
        indices: 3,
        allowance: 4,
    };
    if reading::header(&head) != wanted {
        return Err(format!("the reading has {:?}", reading::header(&head)));
    }
    let values = (1..=10u64).flat_map(u64::to_be_bytes);
    sheet_line(program, &head.into_iter().chain(values).collect::<Vec<_>>())
}

/// All that a sheet can hold.
fn largest() -> Vec<u8> {
    let mut random = Random::new(1, "largest");
    draw_of(values(&mut random, 4096), 31, 4095, 4095).bytes()
}

/// A draw of ten elements.
fn small() -> Vec<u8> {
    draw_of((1..=10).collect(), 8, 25, 3).bytes()
}

fn byte_by_byte(program: &Program) -> Verdict {
    let sheet = small();
    let pieces = sheet
        .chunks(1)
        .inspect(|_| std::thread::sleep(Duration::from_millis(3)));
    let ran = watched(program.command().stdin(Stdio::piped()), |child| {
        feed(child, pieces)
    });
    wrote(ran, &reading::read(&sheet).to_string())
}

fn in_pieces(program: &Program) -> Verdict {
    let sheet = largest();
    let mut random = Random::new(1, "pieces");
    let mut rest = sheet.as_slice();
    let pieces = std::iter::from_fn(|| {
        let most = random.pick(&[1, 7, 100, 5000]);
        let size = rest.len().min(1 + random.below(most) as usize);
        rest.split_off(..size).filter(|piece| !piece.is_empty())
    });
    let ran = watched(program.command().stdin(Stdio::piped()), |child| {
        feed(child, pieces)
    });
    wrote(ran, &reading::read(&sheet).to_string())
}

/// A file with these bytes, from its start. Only the one who holds it can see it.
fn file_of(bytes: &[u8]) -> io::Result<File> {
    let name = std::env::temp_dir().join(format!("sheets-{}", std::process::id()));
    std::fs::write(&name, bytes)?;
    let file = File::options().read(true).write(true).open(&name)?;
    std::fs::remove_file(name)?;
    Ok(file)
}

fn from_file(program: &Program) -> Verdict {
    let sheet = small();
    let file = file_of(&sheet).map_err(text)?;
    let ran = watched(program.command().stdin(file), |_| Ok(()));
    wrote(ran, &reading::read(&sheet).to_string())
}

/// A right header, and then zeros for as long as someone reads. Only what fits may be read.
fn endless(program: &Program) -> Verdict {
    let head: &[u8] = &[0x10, 0, 1, 0, 0, 0];
    let pieces = std::iter::once(head).chain(std::iter::repeat(&[0; 4096][..]));
    let ran = watched(program.command().stdin(Stdio::piped()), |child| {
        feed(child, pieces)
    });
    wrote(ran, "refused 4")
}

/// Runs a command on the sheet, with its own output, and waits for its end.
fn ended(command: &mut Command, sheet: &[u8]) -> Result<std::process::ExitStatus, String> {
    let mut child = command.stdin(Stdio::piped()).spawn().map_err(text)?;
    feed(&mut child, [sheet]).map_err(text)?;
    child.wait().map_err(text)
}

fn same_line(got: &[u8], sheet: &[u8]) -> Verdict {
    let wanted = format!("{}\n", reading::read(sheet));
    if got == wanted.as_bytes() {
        return Ok(());
    }
    let got = String::from_utf8_lossy(got);
    Err(format!("wanted {}, got {}", shown(&wanted), shown(&got)))
}

fn to_file(program: &Program) -> Verdict {
    let sheet = largest();
    let mut file = file_of(&[]).map_err(text)?;
    let output = file.try_clone().map_err(text)?;
    let status = ended(program.command().stdout(output), &sheet)?;
    let mut got = vec![];
    io::Seek::rewind(&mut file).map_err(text)?;
    file.read_to_end(&mut got).map_err(text)?;
    if !status.success() {
        return Err(format!("it ended with {status}"));
    }
    same_line(&got, &sheet)
}

/// The pipe is nearly full before the program starts, and read only after a while: it has to wait
/// in the middle of its line.
fn late_reader(program: &Program) -> Verdict {
    let sheet = largest();
    let (mut reader, mut writer) = io::pipe().map_err(text)?;
    let filler = vec![b'.'; 60_000];
    writer.write_all(&filler).map_err(text)?;
    let late = std::thread::spawn(move || {
        std::thread::sleep(Duration::from_millis(500));
        let mut got = vec![];
        reader.read_to_end(&mut got).map(|_| got)
    });
    let status = ended(program.command().stdout(writer), &sheet)?;
    let got = late
        .join()
        .expect("the reader does not panic")
        .map_err(text)?;
    if !status.success() {
        return Err(format!("it ended with {status}"));
    }
    same_line(
        got.strip_prefix(filler.as_slice()).unwrap_or_default(),
        &sheet,
    )
}

/// It ends by itself, and writes nothing to standard error either.
fn silent(mut command: Command) -> Verdict {
    let ran = watched(command.stdin(Stdio::piped()), |child| {
        feed(child, [small().as_slice()])
    });
    let ran = ran.map_err(text)?;
    if ran.status.success() && ran.writes.is_empty() {
        return Ok(());
    }
    Err(format!("wanted nothing, got {}", ran.description()))
}

/// It ends by itself: the signal that ends a writer without a reader is ignored, and the write fails.
fn no_reader(program: &Program) -> Verdict {
    let status = into_nothing(program.redirected(""))?;
    if status.success() {
        return Ok(());
    }
    Err(format!("it ended with {status}"))
}

/// The same where that signal is ignored from the start.
fn no_reader_no_signal(program: &Program) -> Verdict {
    let mut command = Command::new("sh");
    command
        .args(["-c", "trap '' PIPE; exec \"$@\"", "sh"])
        .args(&program.words);
    let status = into_nothing(command)?;
    if status.success() {
        return Ok(());
    }
    Err(format!("it ended with {status}"))
}

fn into_nothing(mut command: Command) -> Result<std::process::ExitStatus, String> {
    let (reader, writer) = io::pipe().map_err(text)?;
    drop(reader);
    ended(command.stdout(writer), &small())
}
