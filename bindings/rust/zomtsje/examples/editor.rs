//! The core of an editor that keeps every version of a file, which is opened lazily.
//!
//!     editor FILE < COMMANDS
//!
//! A command a line: 'i PLACE TEXT' inserts, 'd PLACE COUNT' deletes, 'f TEXT' tells where the text stands first, 'u'
//! takes the last change back, 'w PLACE' shows the lines around a place, 's PATH' saves under another name.
use std::error::Error;
use std::fs::File;
use std::{env, io};
use zomtsje::{Files, LazyCord};

// The next version, where a command makes one.
fn edited(text: &LazyCord, command: &str) -> Option<LazyCord> {
    let (kind, words) = command.split_once(' ')?;
    let (place, rest) = words.split_once(' ')?;
    let place = place.parse::<u64>().ok()?.min(text.len());
    let mut next = text.clone();
    match kind {
        "i" => next.insert(place, rest),
        "d" => next.remove(place..place + rest.parse::<u64>().ok()?.min(text.len() - place)),
        _ => return None,
    }
    Some(next)
}

// The line of the place, with the one before and the one after.
fn window(text: &LazyCord, place: u64) -> io::Result<LazyCord> {
    let (mut start, mut end) = (place.min(text.len()), place.min(text.len()));
    start = text.rfind_byte(start, b'\n')?.map_or(0, |line| line + 1);
    start = text.rfind_byte(start.saturating_sub(1), b'\n')?.map_or(0, |line| line + 1);
    for _ in 0..2 {
        end = text.find_from(end, "\n")?.map_or(text.len(), |line| line + 1);
    }
    Ok(text.slice(start..end))
}

fn run(versions: &mut Vec<LazyCord>, command: &str) -> Result<(), Box<dyn Error>> {
    let now = &versions[versions.len() - 1];
    if let Some(next) = edited(now, command) {
        versions.push(next);
    } else if let Some(text) = command.strip_prefix("f ") {
        match now.find_from(0, text)? {
            Some(place) => println!("{place}"),
            None => println!("not found"),
        }
    } else if let Some(Ok(place)) = command.strip_prefix("w ").map(str::parse) {
        window(now, place)?.write_to(io::stdout())?;
    } else if let Some(path) = command.strip_prefix("s ") {
        now.write_to(File::create(path)?)?;
    } else if command == "u" && versions.len() > 1 {
        versions.pop();
    } else {
        println!("?");
    }
    Ok(())
}

fn main() -> Result<(), Box<dyn Error>> {
    let path = env::args().nth(1).ok_or("usage: editor FILE")?;
    let mut versions = vec![Files::new().open(path)?];
    for line in io::stdin().lines() {
        run(&mut versions, &line?)?;
    }
    Ok(())
}
