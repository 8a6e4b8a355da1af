//! Compares the project's library with the original Rust on a fixed set of large cases, a line each:
//! large [NUMBER..]
//! Without a number all of them, else those, counted from 1. It needs the feature `ours`.
use std::{env, process::ExitCode, time::Instant};

use oracle::{differ::large_cases, library::linked, original::stack_columns};

fn main() -> ExitCode {
    let Some(library) = linked() else {
        eprintln!("large: built without the feature `ours`, there is nothing to compare");
        return ExitCode::from(2);
    };
    let wanted: Vec<String> = env::args().skip(1).collect();
    let mut differences = 0;
    for (number, case) in (1..).zip(large_cases()) {
        if !wanted.is_empty() && !wanted.contains(&number.to_string()) {
            continue;
        }
        let began = Instant::now();
        let tally = case.run(number, library);
        println!(
            "{}: {}, {} stack columns: {} calls, {} words compared, {} differences, {:.0} s",
            case.name,
            case.shape,
            stack_columns(&case.shape),
            tally.compared,
            tally.words,
            tally.differences,
            began.elapsed().as_secs_f64()
        );
        if tally.differences > 0 {
            println!("{tally}");
        }
        differences += tally.differences;
    }
    ExitCode::from(u8::from(differences > 0))
}
