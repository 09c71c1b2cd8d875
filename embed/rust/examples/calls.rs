//! Calls the library as the program is called: `calls COMMAND.. < INPUT` writes the reply and ends
//! with the number.

use std::io::{Read, Write};
use std::{env, io, process};

fn main() -> io::Result<()> {
    let words: Vec<String> = env::args().skip(1).collect();
    let words: Vec<&str> = words.iter().map(String::as_str).collect();
    let mut case = Vec::new();
    io::stdin().read_to_end(&mut case)?;
    let reply = match words[..] {
        ["eval"] => gkr::eval(&case),
        ["circuit"] => gkr::circuit(&case),
        ["verify"] => gkr::verify(&case),
        ["audit"] => gkr::audit(&case),
        ["prove"] => gkr::prove(gkr::Kind::Lines1, &case),
        ["prove", "--proof", "2"] => gkr::prove(gkr::Kind::Lines2, &case),
        ["prove", "--proof", "pair"] => gkr::prove(gkr::Kind::Pairs, &case),
        ["convert", "--to", "1"] => gkr::convert(1, &case),
        ["convert", "--to", "2"] => gkr::convert(2, &case),
        _ => gkr::run(&words, &case),
    };
    io::stdout().write_all(&reply.text)?;
    process::exit(reply.status as i32)
}
