//! The words after the program's name.

use crate::boxes::{self, Zone};
use crate::source::Choice;
use smokegrid::Beam;
use std::ffi::OsString;
use std::fmt::Display;
use std::path::PathBuf;
use std::str::FromStr;

pub const USAGE: &str = "usage: station FILE [--grid GRID | --list] [--cells X Y Z]
                    [--temperature FILE OFFSET SCALE] [QUESTION...]
       station --window W FILE... [--grid GRID] [--cells X Y Z] [QUESTION...]
Decodes one NanoVDB density grid (ABI 32), builds its cells, prints what it holds. The file is an .nvdb
file, not compressed, or one raw grid.
  --grid GRID                which grid of an .nvdb file: a number from 0, or a name
  --list                     the grids of an .nvdb file, and no more
  --cells X Y Z              so many cells on each axis, 1 to 128; 64 x 64 x 64 where none are named
  --temperature FILE OFFSET SCALE
                             a second grid, whose readings are (value - OFFSET) * SCALE; --at then
                             shows the temperature at the same voxel of that grid beside the density
  --window W                 files in a row, and for each cell the greatest figure over the last W, 1
                             to 16, that were built; a file that is refused is named and passed over.
                             The questions of cells are then of that.
Questions, as many as there are:
  --at X Y Z                 the density at a voxel, and the level that it is read at
  --box LX LY LZ HX HY HZ    the greatest density from the low voxel to the high one, ends included
  --boxes FILE               the same for each box of a file, and the greatest of them: a box a line,
                             six numbers as above; # begins a comment
  --classes L1,L2,.. LX LY LZ HX HY HZ
                             how many voxels of the box lie below the first limit, between each pair
                             (lower end included), and at or above the last; up to 16 limits
  --point X Y Z              the density at a world point, mixed from the eight voxels around it,
                             which are shown, and the figure of the cell that it is in
  --cell X Y Z               the figure of a cell, each number from 0 on
  --ray OX OY OZ DX DY DZ T0 T1
                             the pieces of a ray from the world point O along D, from T0 to T1, how
                             much of it is clear air, and the greatest figure on it
  --layer Z                  the cells of a layer as a sheet to print: a line for each y, . for clear
                             air and 1 to 9 for ninths of the layer's greatest figure
  --help                     this text
Exit status: 0, 1 where the grid or the file is refused, 2 where the call is wrong, the file cannot be
read, or no one grid of it is chosen.
";

#[derive(Debug, PartialEq)]
pub enum Request {
    Help,
    Show(Arguments),
}

#[derive(Debug, PartialEq)]
pub struct Arguments {
    /// One, or in a window any number of them.
    pub files: Vec<PathBuf>,
    /// How many tables the window keeps.
    pub window: Option<u32>,
    pub grid: Option<Choice>,
    pub list: bool,
    pub cells: [u32; 3],
    pub temperature: Option<Heat>,
    pub questions: Vec<Question>,
}

/// A temperature grid, and how it is read.
#[derive(Debug, PartialEq)]
pub struct Heat {
    pub file: PathBuf,
    pub offset: f32,
    pub scale: f32,
}

#[derive(Debug, PartialEq)]
pub enum Question {
    At([i32; 3]),
    Box([i32; 3], [i32; 3]),
    Boxes(Vec<Zone>),
    Classes(Vec<f32>, [i32; 3], [i32; 3]),
    Point([f32; 3]),
    Cell([usize; 3]),
    Ray(Beam),
    Layer(u32),
}

/// The request, or what is wrong with it.
pub fn parse(words: impl Iterator<Item = OsString>) -> Result<Request, String> {
    let mut words = words;
    let mut files: Vec<PathBuf> = Vec::new();
    let mut window = None;
    let (mut grid, mut list) = (None, false);
    let mut cells = [64; 3];
    let mut temperature = None;
    let mut questions = Vec::new();
    while let Some(word) = words.next() {
        match word.to_str() {
            Some("--help" | "-h") => return Ok(Request::Help),
            Some("--list") => list = true,
            Some("--grid") if grid.is_some() => return Err("--grid stands twice".to_string()),
            Some("--grid") => {
                let word = words.next().ok_or("--grid lacks a number or a name")?;
                let word = word.to_string_lossy().into_owned();
                grid = Some(word.parse().map_or(Choice::Name(word), Choice::Number));
            }
            Some("--at") => questions.push(Question::At(three("--at", &mut words)?)),
            Some("--box") => {
                let low = three("--box", &mut words)?;
                questions.push(Question::Box(low, three("--box", &mut words)?));
            }
            Some("--boxes") => {
                let path = words.next().ok_or("--boxes lacks a file")?;
                questions.push(Question::Boxes(boxes::read(&PathBuf::from(path))?));
            }
            Some("--classes") => questions.push(classes(&mut words)?),
            Some("--point") => questions.push(Question::Point(three("--point", &mut words)?)),
            Some("--cell") => questions.push(Question::Cell(three("--cell", &mut words)?)),
            Some("--ray") => questions.push(Question::Ray(ray(&mut words)?)),
            Some("--cells") => cells = three("--cells", &mut words)?,
            Some("--temperature") => temperature = Some(heat(&mut words)?),
            Some("--layer") => questions.push(Question::Layer(one("--layer", &mut words)?)),
            Some("--window") => window = Some(one("--window", &mut words)?),
            Some(option) if option.starts_with('-') => {
                return Err(format!("{option} is no option"))
            }
            _ => files.push(PathBuf::from(word)),
        }
    }
    match (&files[..], window) {
        ([], _) => return Err("no file is named".to_string()),
        ([_, second, ..], None) => return Err(format!("{} is a second file", second.display())),
        _ => {}
    }
    let alone = grid.is_none() && window.is_none() && temperature.is_none();
    if list && !(alone && questions.is_empty()) {
        return Err("--list stands by itself".to_string());
    }
    let of_cells = |question: &Question| matches!(question, Question::Cell(_) | Question::Layer(_));
    if window.is_some() && !questions.iter().all(of_cells) {
        return Err("--window answers --cell and --layer alone".to_string());
    }
    if window.is_some() && temperature.is_some() {
        return Err("--window takes no --temperature".to_string());
    }
    for question in &questions {
        if let Question::Cell(cell) = question {
            check_cell(cell, &cells)?;
        }
    }
    Ok(Request::Show(Arguments { files, window, grid, list, cells, temperature, questions }))
}

fn one<T: FromStr>(option: &str, words: &mut impl Iterator<Item = OsString>) -> Result<T, String>
where
    T::Err: Display,
{
    let word = words.next().ok_or(format!("{option} lacks a number"))?;
    let word = word.to_string_lossy();
    word.parse().map_err(|fault| format!("{option} {word}: {fault}"))
}

fn three<T: FromStr>(
    option: &str,
    words: &mut impl Iterator<Item = OsString>,
) -> Result<[T; 3], String>
where
    T::Err: Display,
{
    Ok([one(option, words)?, one(option, words)?, one(option, words)?])
}

fn ray(words: &mut impl Iterator<Item = OsString>) -> Result<Beam, String> {
    let (origin, direction) = (three("--ray", words)?, three("--ray", words)?);
    Ok(Beam { origin, direction, t_min: one("--ray", words)?, t_max: one("--ray", words)? })
}

/// Limits with commas between them, and a box.
fn classes(words: &mut impl Iterator<Item = OsString>) -> Result<Question, String> {
    let limits = words.next().ok_or("--classes lacks its limits")?;
    let limits = limits.to_str().ok_or("--classes: limits that are no text")?;
    let limit = |word: &str| word.parse().map_err(|fault| format!("--classes {word}: {fault}"));
    let limits = limits.split(',').map(limit).collect::<Result<_, _>>()?;
    Ok(Question::Classes(limits, three("--classes", words)?, three("--classes", words)?))
}

/// Any number that Rust reads as a float: the library, not this, refuses one that is not finite.
fn heat(words: &mut impl Iterator<Item = OsString>) -> Result<Heat, String> {
    let file = PathBuf::from(words.next().ok_or("--temperature lacks a file")?);
    Ok(Heat { file, offset: one("--temperature", words)?, scale: one("--temperature", words)? })
}

fn check_cell(cell: &[usize; 3], cells: &[u32; 3]) -> Result<(), String> {
    match cell.iter().zip(cells).find(|(number, all)| **number >= **all as usize) {
        Some((number, all)) => Err(format!("--cell {number}: there are {all} cells, from 0 on")),
        None => Ok(()),
    }
}

#[cfg(test)]
mod tests {
    use super::*;

    fn parsed(words: &str) -> Result<Request, String> {
        parse(words.split_whitespace().map(OsString::from))
    }

    /// The files with nothing else named.
    fn of(files: &[&str], questions: Vec<Question>) -> Arguments {
        let files = files.iter().map(PathBuf::from).collect();
        Arguments {
            files,
            window: None,
            grid: None,
            list: false,
            cells: [64; 3],
            temperature: None,
            questions,
        }
    }

    #[test]
    fn questions_keep_their_order_and_signs() {
        let questions = vec![
            Question::Box([-1, -2, -3], [4, 5, 6]),
            Question::At([i32::MIN, 0, i32::MAX]),
            Question::Point([-0.5, 1e-3, 2.0]),
            Question::Classes(vec![-0.5, 0.25, 1e9], [-1, 0, 1], [7, 8, 9]),
            Question::Cell([0, 63, 5]),
            Question::Ray(Beam {
                origin: [-1.0, 0.5, 2.0],
                direction: [1.0, 0.0, -0.5],
                t_min: 0.0,
                t_max: 10.0,
            }),
            Question::Layer(7),
        ];
        let words =
            "--box -1 -2 -3 4 5 6 hall.grid --at -2147483648 0 2147483647 --point -0.5 1e-3 2 \
                     --classes -0.5,0.25,1e9 -1 0 1 7 8 9 --cell 0 63 5 \
                     --ray -1 0.5 2 1 0 -5e-1 0 10 --layer 7";
        assert_eq!(parsed(words), Ok(Request::Show(of(&["hall.grid"], questions))));
    }

    #[test]
    fn a_window_takes_files_in_a_row() {
        let questions = vec![Question::Layer(3)];
        let wanted = Arguments { window: Some(2), ..of(&["a", "b", "a"], questions) };
        assert_eq!(parsed("--window 2 a b --layer 3 a"), Ok(Request::Show(wanted)));
    }

    #[test]
    fn cells_are_asked_about_as_they_are_built() {
        let questions = vec![Question::Cell([0, 99, 5])];
        let wanted = Arguments { cells: [1, 100, 128], ..of(&["a"], questions) };
        assert_eq!(parsed("--cell 0 99 5 a --cells 1 100 128"), Ok(Request::Show(wanted)));
    }

    #[test]
    fn a_temperature_has_a_file_an_offset_and_a_scale() {
        let heat = Heat { file: PathBuf::from("b"), offset: -273.15, scale: f32::INFINITY };
        let wanted = Arguments { temperature: Some(heat), ..of(&["a"], vec![]) };
        assert_eq!(parsed("a --temperature b -273.15 inf"), Ok(Request::Show(wanted)));
    }

    #[test]
    fn a_grid_is_chosen_by_its_number_or_its_name() {
        let chosen = |words: &str| match parsed(words) {
            Ok(Request::Show(arguments)) => arguments.grid,
            _ => None,
        };
        assert_eq!(chosen("a --grid 7"), Some(Choice::Number(7)));
        assert_eq!(chosen("--grid density a"), Some(Choice::Name("density".to_string())));
        assert_eq!(chosen("a --grid -1"), Some(Choice::Name("-1".to_string())));
        assert_eq!(chosen("a --at 0 0 0"), None);
    }

    #[test]
    fn faults_name_what_is_wrong() {
        for (words, fault) in [
            ("", "no file is named"),
            ("a b", "b is a second file"),
            ("a --slice 3", "--slice is no option"),
            ("a --at 1 2", "--at lacks a number"),
            ("a --at 1 2 2147483648", "--at 2147483648: number too large to fit in target type"),
            ("a --box 1 2 3 4 5 x", "--box x: invalid digit found in string"),
            ("a --boxes", "--boxes lacks a file"),
            ("a --grid", "--grid lacks a number or a name"),
            ("a --grid 1 --grid 2", "--grid stands twice"),
            ("a --list --grid 1", "--list stands by itself"),
            ("a --list --at 0 0 0", "--list stands by itself"),
            ("a --boxes no/such", "--boxes no/such: No such file or directory (os error 2)"),
            ("a --cell 1 2 64", "--cell 64: there are 64 cells, from 0 on"),
            ("a --cell 1 2 3 --cells 8 2 8", "--cell 2: there are 2 cells, from 0 on"),
            ("a --cells 1 2", "--cells lacks a number"),
            ("a --cells 1 2 -3", "--cells -3: invalid digit found in string"),
            ("a --cell 1 2 -1", "--cell -1: invalid digit found in string"),
            ("a --point 1 2", "--point lacks a number"),
            ("a --layer", "--layer lacks a number"),
            ("a --layer -1", "--layer -1: invalid digit found in string"),
            ("a --temperature", "--temperature lacks a file"),
            ("a --temperature b 1", "--temperature lacks a number"),
            ("a --temperature b 1 x", "--temperature x: invalid float literal"),
            ("a --list --temperature b 1 2", "--list stands by itself"),
            ("--window 2 a --temperature b 1 2", "--window takes no --temperature"),
            ("a b --window", "--window lacks a number"),
            ("--window 2", "no file is named"),
            ("--window 2 a --at 1 2 3", "--window answers --cell and --layer alone"),
        ] {
            assert_eq!(parsed(words), Err(fault.to_string()), "{words}");
        }
    }

    #[test]
    fn help_is_given_whatever_else_is_asked() {
        assert_eq!(parsed("a --help b"), Ok(Request::Help));
    }
}
