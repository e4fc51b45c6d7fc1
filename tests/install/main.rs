//! A program outside the tree, over the installed library: a query answered, and one refused.

use rulefile::{Desk, Direction, Query, Refusal};

fn main() -> Result<(), Box<dyn std::error::Error>> {
    let file = std::fs::read(std::env::args().nth(1).ok_or("no file")?)?;
    let mut desk = Desk::new();
    desk.check(&file)?;
    let value = desk.run(&file, Query::new(1, Direction::Forward, 9, b"PRURRLU"))?;
    println!("{} {}", String::from_utf8(value.letters)?, value.count);
    let refused = desk.run(&file, Query::new(1, Direction::Forward, 1, b"PRURRLU"));
    match refused.map_err(|refused| refused.refusal) {
        Err(Refusal::Spent) => println!("{}", Refusal::Spent),
        Err(other) => println!("another refusal: {other}"),
        Ok(_) => println!("not refused"),
    }
    println!("{}", rulefile::VERSION);
    Ok(())
}
