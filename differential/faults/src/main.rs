//! `faults LIST` writes the names of a list of faults; `faults LIST NAME REPOSITORY` plants one in a repository
//! and writes which file it changed.

use std::path::Path;
use std::process::ExitCode;

fn run(given: &[String]) -> Result<(), String> {
    let (list, rest) = given.split_first().ok_or("usage: faults LIST [NAME REPOSITORY]")?;
    let text = std::fs::read_to_string(list).map_err(|e| format!("{list}: {e}"))?;
    let all = faults::parse(&text)?;
    let [name, repository] = rest else {
        let names: Vec<&str> = all.iter().map(|fault| &fault.name[..]).collect();
        return match rest {
            [] => {
                println!("{}", names.join("\n"));
                Ok(())
            }
            _ => Err("usage: faults LIST [NAME REPOSITORY]".into()),
        };
    };
    let fault = all.iter().find(|fault| fault.name == *name).ok_or(format!("no fault {name}"))?;
    let path = Path::new(repository).join(&fault.file);
    let source = std::fs::read_to_string(&path).map_err(|e| format!("{}: {e}", path.display()))?;
    std::fs::write(&path, faults::plant(&source, fault)?).map_err(|e| format!("{}: {e}", path.display()))?;
    println!("{}", fault.file);
    Ok(())
}

fn main() -> ExitCode {
    let given: Vec<String> = std::env::args().skip(1).collect();
    match run(&given) {
        Ok(()) => ExitCode::SUCCESS,
        Err(message) => {
            eprintln!("faults: {message}");
            ExitCode::FAILURE
        }
    }
}
