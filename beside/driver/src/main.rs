//! driver [INPUTS WITNESSES TERMS ROWS PLACES]
//!
//! Runs tapes through the crate. Standard input has a line `PRIME MODE HEX` for each: the field's modulus, `values` or
//! `setup`, and the tape's bytes. For each it prints that line, what came of the run, and a line `---`. The arguments are the
//! rooms of the system and the places of the book; without them nothing but the book is limited, to 4,096 answers.
mod answer;
mod calls;
mod operands;
mod refusal;
mod run;
mod text;

use run::{Rooms, Run};
use std::env;
use std::io::{self, BufWriter, Write};

const UNLIMITED: Rooms = Rooms {
    inputs: usize::MAX,
    witnesses: usize::MAX,
    terms: usize::MAX,
    rows: usize::MAX,
    places: 4096,
};

fn rooms() -> Rooms {
    let numbers: Vec<usize> = env::args()
        .skip(1)
        .map(|word| word.parse().expect("a number"))
        .collect();
    match numbers[..] {
        [] => UNLIMITED,
        [inputs, witnesses, terms, rows, places] => Rooms {
            inputs,
            witnesses,
            terms,
            rows,
            places,
        },
        _ => panic!("driver [INPUTS WITNESSES TERMS ROWS PLACES]"),
    }
}

fn bytes(hex: &str) -> Vec<u8> {
    assert!(hex.len() % 2 == 0, "an odd number of digits");
    let starts = (0..hex.len()).step_by(2);
    starts
        .map(|i| u8::from_str_radix(&hex[i..i + 2], 16).expect("hexadecimal digits"))
        .collect()
}

fn lines_of<const P: u32>(keeps_values: bool, rooms: Rooms, tape: &[u8]) -> Vec<String> {
    let mut run = Run::<P>::new(keeps_values, rooms);
    run.tape(tape);
    text::lines(&run)
}

fn lines_over(prime: &str, keeps_values: bool, rooms: Rooms, tape: &[u8]) -> Vec<String> {
    match prime {
        "3" => lines_of::<3>(keeps_values, rooms, tape),
        "7" => lines_of::<7>(keeps_values, rooms, tape),
        "29" => lines_of::<29>(keeps_values, rooms, tape),
        "101" => lines_of::<101>(keeps_values, rooms, tape),
        "2013265921" => lines_of::<2013265921>(keeps_values, rooms, tape),
        "4294967291" => lines_of::<4294967291>(keeps_values, rooms, tape),
        _ => panic!("no prime of the list: {prime}"),
    }
}

fn main() -> io::Result<()> {
    let rooms = rooms();
    let input = io::read_to_string(io::stdin())?;
    let mut out = BufWriter::new(io::stdout().lock());
    for line in input.lines() {
        let words: Vec<&str> = line.split(' ').collect();
        let [prime, mode, hex] = words[..] else {
            panic!("no line PRIME MODE HEX: {line}");
        };
        let lines = lines_over(prime, mode == "values", rooms, &bytes(hex));
        writeln!(out, "{line}\n{}\n---", lines.join("\n"))?;
    }
    out.flush()
}
