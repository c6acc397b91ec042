//! misere_positions CERTIFICATE: of each line of standard input, a position of heaps, it prints value, outcome and answer.
//! misere_positions --solve CODE: it prints the description of the quotient that is found.
use misere::{Answer, Bounds, LIMIT, Output, Quotient, Refusal};
use std::io::{Read, stdin};

fn told(answer: &Answer) -> String {
    match answer {
        Answer::Ended => "ended".to_string(),
        Answer::Lost => "lost".to_string(),
        Answer::Wins { heap, left } if left.is_empty() => format!("wins {heap} -> 0"),
        Answer::Wins { heap, left } => format!("wins {heap} -> {}", left.iter().map(u64::to_string).collect::<Vec<_>>().join(" ")),
    }
}

/// The lines of the positions, each asked by itself and then all together.
fn lines(quotient: &Quotient, positions: &[&[u64]]) -> Result<Vec<String>, Refusal> {
    let (values, outcomes, answers) = (quotient.values(positions)?, quotient.outcomes(positions)?, quotient.answers(positions)?);
    for (at, heaps) in positions.iter().enumerate() {
        assert_eq!((quotient.value(heaps)?, quotient.outcome(heaps)?, quotient.answer(heaps)?), (values[at], outcomes[at], answers[at].clone()));
    }
    Ok((0..positions.len()).map(|at| format!("{} {:?} {}", values[at], outcomes[at], told(&answers[at]))).collect())
}

fn print_positions(file: &str) -> Result<(), Box<dyn std::error::Error>> {
    let bytes = std::fs::read(file)?;
    let mut text = String::new();
    stdin().read_to_string(&mut text)?;
    let positions = text.lines().map(|line| line.split_whitespace().map(str::parse).collect()).collect::<Result<Vec<Vec<u64>>, _>>()?;
    let positions: Vec<&[u64]> = positions.iter().map(Vec::as_slice).collect();
    for line in lines(&Quotient::check(&bytes, LIMIT)?, &positions)? {
        println!("{line}");
    }
    Ok(())
}

fn main() -> Result<(), Box<dyn std::error::Error>> {
    let words: Vec<String> = std::env::args().skip(1).collect();
    match words.iter().map(String::as_str).collect::<Vec<_>>()[..] {
        [file] => print_positions(file),
        ["--solve", code] => {
            print!("{}", Quotient::solve(code, Bounds::default())?.describe(Output::Description, false)?);
            Ok(())
        }
        _ => Err("misere_positions CERTIFICATE, or --solve CODE".into()),
    }
}
