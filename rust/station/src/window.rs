//! Files in a row: for each cell the greatest figure over the last of them.

use crate::arguments::Arguments;
use crate::report;
use crate::steps::Steps;
use crate::{build, decode, of_cells, read, say, told, Stop};
use smokegrid::{Majorant, Window};
use std::path::Path;
use std::process::ExitCode;

/// A file that is refused is named and passed over: the window stays as it was. The status is then that of the last such file.
pub fn show(arguments: &Arguments, w: u32) -> ExitCode {
    let mut status = ExitCode::SUCCESS;
    let mut window = match Window::open(w, arguments.cells) {
        Ok(window) => window,
        Err(refusal) => return told(&arguments.files[0], &refusal.into()),
    };
    let mut steps = Steps::new(4 * arguments.files.len());
    for file in &arguments.files {
        if let Err(stop) = push(file, arguments, &mut window, &mut steps) {
            status = told(file, &stop);
        }
    }
    match answered(arguments, &window).and_then(|text| say(&(text + &steps.table()))) {
        Ok(()) => status,
        Err(stop) => told(&arguments.files[0], &stop),
    }
}

fn push(
    file: &Path,
    arguments: &Arguments,
    window: &mut Window,
    steps: &mut Steps,
) -> Result<(), Stop> {
    let bytes = read(file, steps)?;
    let cells = build(&decode(&bytes, arguments, steps)?, arguments, steps)?;
    say(&report::greatest(&cells))?;
    steps.run("push", "pushing", || window.push(&cells)).map_err(Stop::from)
}

/// What the window holds, its greatest figures, and the questions.
fn answered(arguments: &Arguments, window: &Window) -> Result<String, Stop> {
    let cells = Majorant::of_window(window);
    let mut text =
        report::line("window", &format!("{} tables of at most {}", window.held(), window.width()));
    text += &report::cells(&cells);
    for question in &arguments.questions {
        text += &of_cells(question, Some(&cells))?;
    }
    Ok(text)
}
