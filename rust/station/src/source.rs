//! What the bytes are taken for: a whole .nvdb file, of which one grid is shown, or one raw grid. Both may begin with "NanoVDB0", so
//! what passes decides. A file whose contents pass is one; anything else is decoded as a raw grid.

use crate::Stop;
use smokegrid::{grid_part, Contents, Grid, Listed, Refusal};
use std::fs::File;
use std::io::{self, Read};
use std::path::Path;

/// A grid of a file, as it is asked for.
#[derive(Debug, PartialEq)]
pub enum Choice {
    Number(u64),
    Name(String),
}

/// A segment keeps its version in bytes 8 to 11, where a raw grid has half of a checksum.
const HEADER: usize = 16;
const MAJOR: u32 = 32;

/// All bytes of a file. One too long for any grid is not read, unless it begins as an .nvdb file does.
pub fn read(path: &Path) -> Result<Vec<u8>, Stop> {
    let mut file = File::open(path).map_err(Stop::Unreadable)?;
    let length = file.metadata().map_err(Stop::Unreadable)?.len();
    let mut bytes = Vec::new();
    (&mut file).take(HEADER as u64).read_to_end(&mut bytes).map_err(Stop::Unreadable)?;
    if begins_as_file(&bytes) {
        let room = bytes.try_reserve(usize::try_from(length).unwrap_or(usize::MAX));
        room.map_err(|fault| Stop::Unreadable(io::Error::new(io::ErrorKind::OutOfMemory, fault)))?;
        file.read_to_end(&mut bytes).map_err(Stop::Unreadable)?;
        return Ok(bytes);
    }
    if length > Refusal::LONGEST {
        return Err(Refusal::TOO_LONG.into());
    }
    bytes.reserve(length as usize);
    file.take(Refusal::LONGEST).read_to_end(&mut bytes).map_err(Stop::Unreadable)?;
    if bytes.len() as u64 > Refusal::LONGEST {
        return Err(Refusal::TOO_LONG.into());
    }
    Ok(bytes)
}

/// The grid of a file that is asked for, or the only one; none where the bytes are no file that passes. Whoever asks for a grid of a
/// file hears the file's refusal.
pub fn pick<'a>(bytes: &'a [u8], choice: Option<&Choice>) -> Result<Option<Listed<'a>>, Stop> {
    match (Contents::of(bytes), choice) {
        (Ok(contents), choice) => chosen(bytes, &contents, choice).map(Some),
        (Err(refusal), Some(_)) => Err(refusal.into()),
        (Err(_), None) => Ok(None),
    }
}

/// A number past the last grid is refused by the library.
fn chosen<'a>(
    bytes: &[u8],
    contents: &Contents<'a>,
    choice: Option<&Choice>,
) -> Result<Listed<'a>, Stop> {
    let grids = contents.grids();
    let found = match choice {
        None if grids.len() == 1 => Ok(&grids[0]),
        None => Err(format!("{} grids: choose one by --grid; --list shows them", grids.len())),
        Some(Choice::Number(n)) => grid_part(bytes, *n).map(|_| Ok(&grids[*n as usize]))?,
        Some(Choice::Name(name)) => match contents.named(name)[..] {
            [grid] => Ok(grid),
            [] => Err(format!("no grid is named {name:?}; --list shows the names")),
            ref several => {
                let numbers: Vec<String> = several.iter().map(|g| g.index.to_string()).collect();
                let (times, numbers) = (several.len(), numbers.join(", "));
                Err(format!("{name:?} stands {times} times, as grids {numbers}: choose by number"))
            }
        },
    };
    found.cloned().map_err(Stop::Choice)
}

/// Decodes the grid that was picked, or the bytes as a raw grid. Where neither passes, the refusal is the file's if the bytes begin as
/// one, and otherwise the raw grid's.
pub fn load(bytes: &[u8], picked: Option<&Listed>) -> Result<Grid, Refusal> {
    match picked {
        Some(grid) => Grid::from_file(bytes, grid.index as u64),
        None => Grid::decode(bytes).map_err(|refusal| match Contents::of(bytes) {
            Err(of_file) if begins_as_file(bytes) => of_file,
            _ => refusal,
        }),
    }
}

/// The grid with a temperature grid beside it: the only one of a file, or the bytes as a raw grid.
pub fn heat(grid: Grid, bytes: &[u8], offset: f32, scale: f32) -> Result<Grid, Stop> {
    let part = match pick(bytes, None)? {
        Some(picked) => grid_part(bytes, picked.index as u64)?,
        None => bytes,
    };
    Ok(grid.with_temperature(part, offset, scale)?)
}

fn begins_as_file(bytes: &[u8]) -> bool {
    match bytes {
        [b'N', b'a', b'n', b'o', b'V', b'D', b'B', b'0' | b'2', a, b, c, d, _, _, _, _, ..] => {
            u32::from_le_bytes([*a, *b, *c, *d]) >> 21 == MAJOR
        }
        _ => false,
    }
}
