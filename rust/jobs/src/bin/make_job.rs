//! Makes a job's bytes from its text, or prints the text of a job.

use std::process::ExitCode;
use std::{env, fs};

const USAGE: &str = "usage: ./make_job TEXT JOB      makes a job file of its text
       ./make_job --text JOB    prints the text of a job file";

fn main() -> ExitCode {
    let arguments: Vec<String> = env::args().skip(1).collect();
    let result = match arguments.as_slice() {
        [flag] if flag == "--help" || flag == "-h" => {
            println!("{USAGE}");
            Ok(())
        }
        [flag, job] if flag == "--text" => print_text(job),
        [text, job] => make_job(text, job),
        _ => {
            eprintln!("{USAGE}");
            return ExitCode::from(2);
        }
    };
    match result {
        Ok(()) => ExitCode::SUCCESS,
        Err(message) => {
            eprintln!("{message}");
            ExitCode::FAILURE
        }
    }
}

fn make_job(text: &str, job: &str) -> Result<(), String> {
    let source = fs::read_to_string(text).map_err(|error| format!("{text}: {error}"))?;
    let bytes = jobs::text::to_bytes(&source).map_err(|error| format!("{text}: {error}"))?;
    fs::write(job, bytes).map_err(|error| format!("{job}: {error}"))
}

fn print_text(job: &str) -> Result<(), String> {
    let bytes = fs::read(job).map_err(|error| format!("{job}: {error}"))?;
    let text = jobs::text::from_bytes(&bytes)
        .ok_or_else(|| format!("{job}: the header and the length don't fit the counts"))?;
    print!("{text}");
    Ok(())
}
