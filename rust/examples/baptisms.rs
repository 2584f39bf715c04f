//! Reads a register with an entry on each line, and prints the name and the year of each.
use entryreader::{Reader, shown};

fn main() -> Result<(), Box<dyn std::error::Error>> {
    let mut reader = Reader::new(&std::fs::read("baptism.txt")?)?;
    let register = std::fs::read("baptisms.txt")?;
    for entry in register.trim_ascii_end().split(|byte| *byte == b'\n') {
        match reader.verdict(entry) {
            Ok(verdict) if verdict.is_recognised() => {
                let reading = reader.reading(entry)?;
                // On this sheet variable 2 is the name, and 5 the year.
                let part = |variable| shown(reading.taken(variable, entry).unwrap_or_default());
                println!("{}, {}", part(2), part(5));
            }
            Ok(verdict) => println!("{}: {}", shown(entry), verdict.code()),
            Err(error) => println!("{}: {error}", shown(entry)),
        }
    }
    Ok(())
}
