//! Writes streams of room records and what roomlines must print for them:
//! `streams FOLDER [streams] [seed] [samples in each]` makes FOLDER/K.records and FOLDER/K.lines.
//! `streams FOLDER 0` makes FOLDER/room.stream and FOLDER/room.lines, the sample that is shipped.

use std::path::PathBuf;
use std::process::exit;
use std::{env, fs, io};

use oracle::argument;
use oracle::lines::lines;
use oracle::random::Random;
use oracle::streams::{sample, stream};

fn main() -> io::Result<()> {
    let Some(folder) = env::args_os().nth(1).map(PathBuf::from) else {
        eprintln!("name the folder to write to");
        exit(2);
    };
    fs::create_dir_all(&folder)?;
    let (count, seed, frames) = (argument(2, 20), argument(3, 1), argument(4, 3000));
    if count == 0 {
        fs::write(folder.join("room.lines"), lines(&sample()))?;
        fs::write(folder.join("room.stream"), sample())?;
    }
    let random = &mut Random::new(seed);
    for k in 0..count {
        let records = stream(random, frames);
        fs::write(folder.join(format!("{k}.lines")), lines(&records))?;
        fs::write(folder.join(format!("{k}.records")), records)?;
    }
    Ok(())
}
