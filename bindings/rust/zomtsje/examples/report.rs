//! Makes a report of a file of lines NAME NUMBER: a table with the total in front.
//!
//!     report FILE
use std::error::Error;
use std::fmt::Write;
use std::fs::File;
use std::{env, io};
use zomtsje::{Cord, CordBuilder};

fn report(text: &Cord) -> Result<Cord, Box<dyn Error>> {
    let (mut rows, mut total) = (CordBuilder::new(), 0);
    for line in text.lines() {
        let space = line.find_byte(0, b' ').ok_or("a line without a number")?;
        let value: i64 = line.slice(space + 1..).to_string().parse()?;
        writeln!(rows, "{:<12}|{value:>8}", line.slice(..space).to_string())?;
        total += value;
    }
    Ok(Cord::from(format!("{:<12}|{total:>8}\n", "total")) + rows.build())
}

fn main() -> Result<(), Box<dyn Error>> {
    let path = env::args().nth(1).ok_or("usage: report FILE")?;
    report(&Cord::from_reader(File::open(path)?)?)?.write_to(io::stdout())?;
    Ok(())
}
