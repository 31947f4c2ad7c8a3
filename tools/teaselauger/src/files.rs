//! Files that are read and written. The path `-` is standard input, or standard output.
use crate::failure::Failure;
use std::fs;
use std::io::{self, Read, Write};

/// The programs read no more of a model file, and neither does the tool. The largest legal file has 13,934 bytes.
const MOST: usize = 65_536;

/// The bytes of a model file that are judged, and whether it has more.
pub struct ModelFile {
    pub bytes: Vec<u8>,
    pub is_longer: bool,
}

pub fn read_model(path: &str) -> Result<ModelFile, Failure> {
    let mut bytes = read_upto(path, MOST + 1)?;
    let is_longer = bytes.len() > MOST;
    bytes.truncate(MOST);
    Ok(ModelFile { bytes, is_longer })
}

/// The bytes of a file, so many at most.
fn read_upto(path: &str, most: usize) -> Result<Vec<u8>, Failure> {
    let mut bytes = Vec::new();
    let mut all = |from: &mut dyn Read| from.take(most as u64).read_to_end(&mut bytes);
    match path {
        "-" => all(&mut io::stdin().lock()).map_err(|error| Failure::of_path("standard input", error))?,
        _ => fs::File::open(path).and_then(|mut file| all(&mut file)).map_err(|error| Failure::of_path(path, error))?,
    };
    Ok(bytes)
}

pub fn read(path: &str) -> Result<Vec<u8>, Failure> {
    read_upto(path, usize::MAX)
}

/// To a path, or for `-` to what the command prints.
pub fn write(path: &str, bytes: &[u8], out: &mut dyn Write) -> Result<(), Failure> {
    if path == "-" {
        return Ok(out.write_all(bytes)?);
    }
    fs::write(path, bytes).map_err(|error| Failure::of_path(path, error))
}
