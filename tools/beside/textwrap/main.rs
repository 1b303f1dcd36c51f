// Wraps each line of standard input by the crate textwrap, as a paragraph: program first-fit|optimal-fit COLUMNS
use std::error::Error;
use std::io::{Read, Write};
use std::{env, io};
use textwrap::{Options, WrapAlgorithm};

fn main() -> Result<(), Box<dyn Error>> {
    let words: Vec<String> = env::args().skip(1).collect();
    let algorithm = match words[0].as_str() {
        "optimal-fit" => WrapAlgorithm::new_optimal_fit(),
        _ => WrapAlgorithm::FirstFit,
    };
    let options = Options::new(words[1].parse()?).wrap_algorithm(algorithm);
    let (mut text, mut wrapped) = (String::new(), String::new());
    io::stdin().read_to_string(&mut text)?;
    for line in text.lines() {
        for shown in textwrap::wrap(line, &options) {
            wrapped.push_str(&shown);
            wrapped.push('\n');
        }
    }
    Ok(io::stdout().write_all(wrapped.as_bytes())?)
}
