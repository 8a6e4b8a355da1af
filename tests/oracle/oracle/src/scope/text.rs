//! The text that the program `plan` reads, and what it prints.
use std::fmt::Write;

use super::planning::planned;
use crate::record::digits;

/// Standard output for standard input.
pub fn plan_text(input: &[u8]) -> String {
    let answer = parse(input)
        .ok_or(1)
        .and_then(|(l_skip, n_stack, list)| planned(l_skip, n_stack, &list));
    match answer {
        Err(number) => format!("refused {number}\n"),
        Ok(plan) => {
            let mut out = format!("{} {} {}\n", plan.width, plan.height, plan.places.len());
            for place in &plan.places {
                writeln!(out, "{}", digits(place.record())).unwrap();
            }
            out
        }
    }
}

/// l_skip, n_stack and the triples; None for text of another form or a number above u32.
fn parse(input: &[u8]) -> Option<(u32, u32, Vec<u32>)> {
    let lines = input.strip_suffix(b"\n")?.split(|byte| *byte == b'\n');
    let mut lines = lines.map(numbers);
    let sizes = lines.next()??;
    let [l_skip, n_stack] = sizes[..] else {
        return None;
    };
    let mut list = vec![];
    for line in lines {
        let triple = line?;
        if triple.len() != 3 {
            return None;
        }
        list.extend(triple);
    }
    Some((l_skip, n_stack, list))
}

/// Digits with one space between.
fn numbers(line: &[u8]) -> Option<Vec<u32>> {
    line.split(|byte| *byte == b' ').map(number).collect()
}

fn number(digits: &[u8]) -> Option<u32> {
    if digits.is_empty() {
        return None;
    }
    digits.iter().try_fold(0u32, |value, byte| {
        let digit = byte.is_ascii_digit().then(|| (byte - b'0') as u32)?;
        value.checked_mul(10)?.checked_add(digit)
    })
}
