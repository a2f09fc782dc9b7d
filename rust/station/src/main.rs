//! `station`: what a smoke station shows of one grid, raw or out of an .nvdb file.

mod arguments;
mod boxes;
mod classes;
mod points;
mod rays;
mod report;
mod source;
mod steps;
mod window;

use arguments::{Arguments, Heat, Question, Request, USAGE};
use report::{counted, number, triple};
use smokegrid::{Contents, Grid, Majorant, Refusal};
use std::io::{self, Write};
use std::path::{Path, PathBuf};
use std::process::ExitCode;
use steps::Steps;

const REFUSED: u8 = 1;
const BAD_USAGE: u8 = 2;

/// Why nothing more is shown.
enum Stop {
    Refused(Refusal),
    Unreadable(io::Error),
    /// No one grid of the file is chosen.
    Choice(String),
    /// The temperature's file has stopped it.
    Beside(PathBuf, Box<Stop>),
    /// Standard output was closed.
    Unwritten,
}

impl From<Refusal> for Stop {
    fn from(refusal: Refusal) -> Self {
        Stop::Refused(refusal)
    }
}

fn main() -> ExitCode {
    let arguments = match arguments::parse(std::env::args_os().skip(1)) {
        Ok(Request::Help) => {
            return say(USAGE).map_or(ExitCode::from(BAD_USAGE), |()| ExitCode::SUCCESS)
        }
        Ok(Request::Show(arguments)) => arguments,
        Err(fault) => {
            eprintln!("station: {fault}\n{USAGE}");
            return ExitCode::from(BAD_USAGE);
        }
    };
    match arguments.window {
        Some(w) => window::show(&arguments, w),
        None => {
            let file = &arguments.files[0];
            show(file, &arguments).map_or_else(|stop| told(file, &stop), |()| ExitCode::SUCCESS)
        }
    }
}

/// Why it stopped, on standard error, and the status.
fn told(file: &Path, stop: &Stop) -> ExitCode {
    let name = file.display();
    match stop {
        Stop::Refused(refusal) => {
            let (number, meaning) = (refusal.number(), refusal.meaning());
            eprintln!("station: {name}: refused {number}: {meaning}");
            eprintln!("what to do: {}", refusal.advice());
            ExitCode::from(REFUSED)
        }
        Stop::Unreadable(error) => {
            eprintln!("station: {name}: {error}");
            ExitCode::from(BAD_USAGE)
        }
        Stop::Choice(fault) => {
            eprintln!("station: {name}: {fault}");
            ExitCode::from(BAD_USAGE)
        }
        Stop::Beside(file, stop) => told(file, stop),
        Stop::Unwritten => ExitCode::from(BAD_USAGE),
    }
}

/// What is known is printed before the next step begins, so that a refusal hides nothing.
fn show(file: &Path, arguments: &Arguments) -> Result<(), Stop> {
    let mut steps = Steps::new(3 + usize::from(arguments.temperature.is_some()));
    let bytes = read(file, &mut steps)?;
    if arguments.list {
        return say(&report::contents(&Contents::of(&bytes)?));
    }
    let mut grid = decode(&bytes, arguments, &mut steps)?;
    drop(bytes);
    say(&report::grid(&grid))?;
    if let Some(heat) = &arguments.temperature {
        let heated = with_temperature(grid, heat, &mut steps);
        grid = heated.map_err(|stop| Stop::Beside(heat.file.clone(), Box::new(stop)))?;
        say(&report::temperature(&heat.file, heat.offset, heat.scale))?;
    }
    let built = build(&grid, arguments, &mut steps);
    if let Ok(cells) = &built {
        say(&report::cells(cells))?;
    }
    say(&answers(arguments, &grid, built.as_ref().ok())?)?;
    say(&steps.table())?;
    built.map(|_| ()).map_err(Stop::from)
}

fn read(file: &Path, steps: &mut Steps) -> Result<Vec<u8>, Stop> {
    let bytes = steps.run("read", "reading", || source::read(file))?;
    steps.holds(bytes.len());
    say(&report::file(file, bytes.len()))?;
    Ok(bytes)
}

/// The grid that is asked for, of an .nvdb file or of the bytes as they are.
fn decode(bytes: &[u8], arguments: &Arguments, steps: &mut Steps) -> Result<Grid, Stop> {
    let picked = source::pick(bytes, arguments.grid.as_ref())?;
    if let Some(grid) = &picked {
        say(&report::listed(grid))?;
    }
    let length = picked.as_ref().map_or(bytes.len(), |grid| grid.size());
    let doing = format!("decoding {} bytes", counted(length));
    let grid = steps.run("decode", &doing, || source::load(bytes, picked.as_ref()))?;
    steps.holds(grid.table_bytes());
    Ok(grid)
}

fn with_temperature(grid: Grid, heat: &Heat, steps: &mut Steps) -> Result<Grid, Stop> {
    let doing = "loading the temperature";
    let heated = steps.run("heat", doing, || {
        source::heat(grid, &source::read(&heat.file)?, heat.offset, heat.scale)
    })?;
    steps.holds(heated.temperature_bytes());
    Ok(heated)
}

fn build(grid: &Grid, arguments: &Arguments, steps: &mut Steps) -> Result<Majorant, Refusal> {
    let [x, y, z] = arguments.cells;
    let doing = format!("building {x} x {y} x {z} cells");
    let built = steps.run("build", &doing, || grid.build_majorant_with(arguments.cells));
    if let Ok(cells) = &built {
        steps.holds(cells.table_bytes());
    }
    built
}

/// Lines for each question; a cell's has no figure, and a ray's no pieces, where the build was refused.
fn answers(arguments: &Arguments, grid: &Grid, cells: Option<&Majorant>) -> Result<String, Stop> {
    let mut lines = String::new();
    for question in &arguments.questions {
        lines += &match question {
            Question::At(at) => {
                let reading = grid.reading(*at)?;
                let text = match &arguments.temperature {
                    Some(_) => report::heated(reading, grid.temperature(*at)?),
                    None => report::reading(reading),
                };
                report::line(&format!("at {}", triple(at)), &text)
            }
            Question::Box(low, high) => {
                report::load(low, high, &grid.box_maximum_counted(*low, *high)?)
            }
            Question::Boxes(boxes) => report::zones(boxes, &grid.box_maxima(boxes)?),
            Question::Classes(limits, low, high) => {
                classes::table(limits, low, high, &grid.classes(limits, *low, *high)?)
            }
            Question::Point(point) => points::shown(grid, cells, *point)?,
            Question::Cell(_) | Question::Layer(_) => of_cells(question, cells)?,
            Question::Ray(beam) => match cells {
                Some(cells) => rays::shown(beam, grid.ray(cells, beam)?),
                None => rays::none(beam),
            },
        };
    }
    Ok(lines)
}

/// What a table of cells answers: a line, or a sheet as it is.
fn of_cells(question: &Question, cells: Option<&Majorant>) -> Result<String, Stop> {
    Ok(match question {
        Question::Cell(cell) => report::line(
            &format!("cell {}", triple(cell)),
            &cells.and_then(|cells| cells.figure(*cell)).map_or("none".to_string(), number),
        ),
        Question::Layer(z) => match cells {
            Some(cells) => cells.layer(*z)?,
            None => report::line(&format!("layer {z}"), "none"),
        },
        _ => String::new(),
    })
}

fn say(text: &str) -> Result<(), Stop> {
    let mut out = io::stdout().lock();
    out.write_all(text.as_bytes()).and_then(|()| out.flush()).map_err(|_| Stop::Unwritten)
}
