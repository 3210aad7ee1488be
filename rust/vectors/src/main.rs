//! Writes the stored vectors that the replay programs run: answers of the real source, as Rattle
//! constants. Its one argument is the repository's folder.

mod field;
mod permutation;
mod rattle;
mod sponge;

use std::path::Path;
use std::process::ExitCode;

/// The seed of every file.
const SEED: u64 = 1;

fn main() -> ExitCode {
    let words: Vec<String> = std::env::args().skip(1).collect();
    let [root] = words.as_slice() else {
        eprintln!("vectors: its one argument is the repository's folder");
        return ExitCode::from(2);
    };
    let files = [
        ("crates/replay_field/src/vectors.rt", field::file()),
        (
            "crates/replay_permutation/src/vectors.rt",
            permutation::file(),
        ),
        ("crates/replay_sponge/src/vectors.rt", sponge::file()),
    ];
    for (path, text) in files {
        let path = Path::new(root).join(path);
        // A file that would stay the same keeps its time, so that what was built of it is still newer.
        if std::fs::read(&path).is_ok_and(|old| old == text.as_bytes()) {
            continue;
        }
        if !path.parent().is_some_and(Path::exists) {
            println!(
                "{}: its crate is not there, and it was not written",
                path.display()
            );
        } else if let Err(error) = std::fs::write(&path, text) {
            eprintln!("vectors: {}: {error}", path.display());
            return ExitCode::FAILURE;
        }
    }
    ExitCode::SUCCESS
}
