//! Finds a word in a log, which is opened lazily: the place and the text of each line that has it.
//!
//!     indexer LOG WORD
use std::env;
use std::error::Error;
use zomtsje::Files;

fn main() -> Result<(), Box<dyn Error>> {
    let words: Vec<String> = env::args().collect();
    let [_, path, word] = &words[..] else {
        return Err("usage: indexer LOG WORD".into());
    };
    let log = Files::new().open(path)?;
    let (mut end, mut lines) = (0, 0);
    while let Some(place) = log.find_from(end, word)? {
        let begin = log.rfind_byte(place, b'\n')?.map_or(0, |it| it + 1);
        end = log.find_from(place, "\n")?.unwrap_or(log.len());
        println!("{begin} {}", log.slice(begin..end).to_cord()?);
        lines += 1;
    }
    println!("{lines} lines");
    Ok(())
}
