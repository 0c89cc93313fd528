//! Adds 1 so many times to a counter that another process has made: `shared_add NAME SEATS CALLS`.
use std::env;
use std::error::Error;
use std::path::Path;
use universal::shared::{Counter, Shared};

fn main() -> Result<(), Box<dyn Error>> {
    let words: Vec<String> = env::args().collect();
    let [_, name, seats, calls] = words.as_slice() else { return Err("usage: shared_add NAME SEATS CALLS".into()) };
    let (mut seat, _) = Shared::<Counter>::attach(Path::new(name), seats.parse()?)?.claim(None)?;
    for _ in 0..calls.parse()? {
        seat.add(1)?;
    }
    Ok(())
}
