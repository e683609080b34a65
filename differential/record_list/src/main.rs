//! `record_list SEED FOLDER INDEX` writes step lines to FOLDER/stdin, their answers to FOLDER/stdout, and to INDEX which
//! line is there for what.

use std::path::Path;
use std::process::ExitCode;

fn main() -> ExitCode {
    let given: Vec<String> = std::env::args().skip(1).collect();
    let [seed, folder, index] = &given[..] else {
        eprintln!("usage: record_list SEED FOLDER INDEX");
        return ExitCode::FAILURE;
    };
    let Ok(seed) = seed.parse() else {
        eprintln!("record_list: SEED has to be a number, not '{seed}'");
        return ExitCode::FAILURE;
    };
    reference::step::silence_panics();
    let list = record_list::list(seed);
    let folder = Path::new(folder);
    let written = std::fs::create_dir_all(folder)
        .and_then(|()| std::fs::write(folder.join("stdin"), list.stdin()))
        .and_then(|()| std::fs::write(folder.join("stdout"), list.stdout()))
        .and_then(|()| std::fs::write(index, list.index_text()));
    if let Err(error) = written {
        eprintln!("record_list: {error}");
        return ExitCode::FAILURE;
    }
    println!("{} lines, {} of them named in the index", list.lines.len(), list.index.len());
    ExitCode::SUCCESS
}
