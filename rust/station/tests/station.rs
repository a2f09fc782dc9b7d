//! The program as it is called: what it prints, and its exit status.

use std::path::{Path, PathBuf};
use std::process::{Command, Output};

const SAMPLE: &str = concat!(env!("CARGO_MANIFEST_DIR"), "/../../samples/plume.grid");

fn station(words: &[&str]) -> Output {
    Command::new(env!("CARGO_BIN_EXE_station")).args(words).output().unwrap()
}

fn out(output: &Output) -> String {
    String::from_utf8(output.stdout.clone()).unwrap()
}

fn err(output: &Output) -> String {
    String::from_utf8(output.stderr.clone()).unwrap()
}

/// A file with the sample's bytes after an edit.
fn edited(name: &str, edit: impl FnOnce(&mut Vec<u8>)) -> PathBuf {
    let mut bytes = std::fs::read(SAMPLE).unwrap();
    edit(&mut bytes);
    let path = Path::new(env!("CARGO_TARGET_TMPDIR")).join(name);
    std::fs::write(&path, bytes).unwrap();
    path
}

/// Refused: status 1, the number and what to do on standard error, and no figures.
fn assert_refused(path: &Path, number: u32) -> String {
    let output = station(&[path.to_str().unwrap()]);
    let err = err(&output);
    assert_eq!(output.status.code(), Some(1), "{err}");
    let start = format!("station: {}: refused {number}: ", path.display());
    assert!(err.starts_with(&start), "{err}");
    assert!(err.lines().nth(1).is_some_and(|line| line.starts_with("what to do: ")), "{err}");
    assert!(!out(&output).contains("greatest figure"), "{}", out(&output));
    out(&output)
}

/// The figures are those of the Rust modules (tests/oracle).
#[test]
fn the_sample_is_shown() {
    let output = station(&[SAMPLE]);
    assert_eq!((output.status.code(), err(&output).as_str()), (Some(0), ""));
    let text = out(&output);
    let lines: Vec<&str> = text.lines().collect();
    assert_eq!(lines[0], format!("file             {SAMPLE}"));
    assert_eq!(
        lines[1..9],
        [
            "length           345,824 bytes",
            "roots            1",
            "nodes            1 upper, 1 lower, 19 leaf",
            "index box        (0, 0, 0) to (23, 23, 23)",
            "world box        (0, 0, 0) to (6, 6, 6)",
            "background       0",
            "greatest figure  1 in cell (26, 21, 0)",
            "clear air        131,269 of 262,144 cells (50.1 %)",
        ]
    );
}

/// The figures are those of the Rust modules' copy for any cells (tests/oracle/any-cells).
#[test]
fn other_cells_are_built_where_they_are_named() {
    let output = station(&[SAMPLE, "--cells", "16", "8", "4", "--cell", "6", "2", "0"]);
    assert_eq!((output.status.code(), err(&output).as_str()), (Some(0), ""));
    let text = out(&output);
    assert!(text.contains("greatest figure  1 in cell (6, 2, 0)\n"), "{text}");
    assert!(text.contains("clear air        158 of 512 cells (30.9 %)\n"), "{text}");
    assert!(text.contains("cell (6, 2, 0)   1\n"), "{text}");
    let refused = station(&[SAMPLE, "--cells", "16", "0", "4"]);
    assert_eq!(refused.status.code(), Some(1));
    assert!(err(&refused).contains("refused 23: "), "{}", err(&refused));
    assert!(out(&refused).contains("roots            1\n"), "{}", out(&refused));
}

/// The mark of newer exporters: the same grid and figures.
#[test]
fn the_newer_mark_is_shown_alike() {
    let newer = edited("newer", |bytes| bytes[..8].copy_from_slice(b"NanoVDB1"));
    let [old, new] = [SAMPLE, newer.to_str().unwrap()].map(|path| {
        let output =
            station(&[path, "--at", "11", "9", "0", "--box", "0", "0", "0", "23", "23", "23"]);
        assert_eq!((output.status.code(), err(&output).as_str()), (Some(0), ""));
        out(&output).lines().skip(1).take(10).map(str::to_string).collect::<Vec<_>>()
    });
    assert_eq!(old, new);
}

#[test]
fn each_step_has_its_time_and_memory() {
    let text = out(&station(&[SAMPLE]));
    let lines: Vec<&str> = text.lines().skip(10).collect();
    assert_eq!(
        lines[0].split_whitespace().collect::<Vec<_>>(),
        ["step", "time", "it", "holds", "peak", "memory"]
    );
    for (line, (name, holds)) in
        lines[1..].iter().zip([("read", "345,824"), ("decode", "333,844"), ("build", "1,048,576")])
    {
        let words: Vec<&str> = line.split_whitespace().collect();
        assert_eq!((words[0], words[2], words[3]), (name, "ms", holds), "{line}");
        assert!(words[1].parse::<f64>().is_ok_and(|time| time >= 0.0), "{line}");
    }
    assert_eq!(lines.len(), 4);
}

#[test]
fn questions_are_answered_in_their_order() {
    let words = "--at 11 9 0 --box 0 0 0 23 23 23 --at -1 0 0 --cell 26 21 0 --box 9 0 0 8 0 0";
    let mut all = vec![SAMPLE];
    all.extend(words.split(' '));
    let output = station(&all);
    let text = out(&output);
    let answers: Vec<&str> = text.lines().skip(9).take(7).collect();
    assert_eq!(output.status.code(), Some(0));
    assert_eq!(
        answers,
        [
            "at (11, 9, 0)    1 (leaf)",
            "box (0, 0, 0) to (23, 23, 23) 1",
            "  read           1 root, 1 upper and 27 lower entries, 9,728 leaf values; 9,757 of at most 13,904",
            "at (-1, 0, 0)    0 (background)",
            "cell (26, 21, 0) 1",
            "box (9, 0, 0) to (8, 0, 0) 0",
            "  read           0 root, 0 upper and 0 lower entries, 0 leaf values; 0 together",
        ]
    );
}

#[test]
fn a_file_of_boxes_is_answered_box_by_box() {
    let path = Path::new(env!("CARGO_TARGET_TMPDIR")).join("zones");
    let zones = path.to_str().unwrap();
    let ask = |text: &str| {
        std::fs::write(&path, text).unwrap();
        station(&[SAMPLE, "--boxes", zones])
    };
    let output = ask("# two zones, one empty\n0 0 0 23 23 23\n9 0 0 8 0 0 # none\n0 0 0 0 0 0\n");
    assert_eq!((output.status.code(), err(&output).as_str()), (Some(0), ""));
    let text = out(&output);
    let answers: Vec<&str> = text.lines().skip(9).take(4).collect();
    assert_eq!(
        answers,
        [
            "box (0, 0, 0) to (23, 23, 23) 1",
            "box (9, 0, 0) to (8, 0, 0) 0",
            "box (0, 0, 0) to (0, 0, 0) 0",
            "greatest of 3 boxes 1",
        ]
    );
    assert!(out(&ask("")).contains("greatest of 0 boxes 0\n"));
    let output = ask("0 0 0 1 1 1\n1 2\n");
    assert_eq!(output.status.code(), Some(2));
    let fault = format!("station: --boxes {zones}: line 2: 2 numbers, a box has six");
    assert!(err(&output).starts_with(&fault), "{}", err(&output));
}

/// Along x through the middle of the smoke.
#[test]
fn a_ray_is_shown_piece_by_piece() {
    let mut words = vec![SAMPLE];
    words.extend("--ray 0 3 1 1 0 0 0 6".split(' '));
    let output = station(&words);
    let text = out(&output);
    let lines: Vec<&str> = text.lines().skip(9).take(67).collect();
    assert_eq!(output.status.code(), Some(0));
    assert_eq!(lines[0], "ray (0, 3, 1) along (1, 0, 0) 64 pieces");
    assert_eq!(lines[1], "  t 0 to 0.09375 0 in cell (0, 32, 10)");
    assert_eq!(lines[33], "  t 3 to 3.09375 0.73499995 in cell (32, 32, 10)");
    assert_eq!(lines[64], "  t 5.90625 to 6 0 in cell (63, 32, 10)");
    assert_eq!(lines[65], "  clear air      3.09375 of 6 in t (51.6 %)");
    assert_eq!(lines[66], "  greatest figure 0.73499995");
}

#[test]
fn a_ray_without_a_direction_is_refused() {
    let output = station(&[SAMPLE, "--ray", "0", "3", "1", "0", "-0", "0", "0", "6"]);
    assert_eq!(output.status.code(), Some(1));
    assert!(err(&output).contains("refused 22: "), "{}", err(&output));
}

#[test]
fn a_cut_file_is_refused() {
    let shown = assert_refused(&edited("cut", |bytes| bytes.truncate(500)), 2);
    assert!(shown.contains("length           500 bytes\n"), "{shown}");
    assert_refused(&edited("short", |bytes| bytes.truncate(300_000)), 3);
}

#[test]
fn damage_is_refused() {
    let file = edited("mark", |bytes| bytes[7] = b'2');
    assert_refused(&file, 3);
    let words = err(&station(&[file.to_str().unwrap()]));
    assert!(words.contains("NanoVDB0 or NanoVDB1"), "{words}");
    assert_refused(&edited("count", |bytes| bytes[704] += 1), 10);
    assert_refused(&edited("nothing", Vec::clear), 2);
}

/// The lookup is answered all the same, and the cell has no figure.
#[test]
fn a_refused_build_hides_nothing_else() {
    let far = (-2147483648f64).to_bits().to_le_bytes();
    let path = edited("far", |bytes| bytes[560..568].copy_from_slice(&far));
    let shown = assert_refused(&path, 16);
    assert!(shown.contains("roots            1\n"), "{shown}");
    let output =
        station(&[path.to_str().unwrap(), "--at", "11", "9", "0", "--cell", "0", "0", "0"]);
    assert_eq!(output.status.code(), Some(1));
    assert!(out(&output).contains("at (11, 9, 0)    1 (leaf)\n"), "{}", out(&output));
    assert!(out(&output).contains("cell (0, 0, 0)   none\n"), "{}", out(&output));
}

#[test]
fn a_file_too_long_is_refused_unread() {
    let path = edited("long", Vec::clear);
    // Only its length is set: it takes no room on the disk.
    std::fs::File::options().write(true).open(&path).unwrap().set_len(1 << 32).unwrap();
    let shown = assert_refused(&path, 1);
    std::fs::remove_file(&path).unwrap();
    assert_eq!(shown, "");
}

#[test]
fn a_wrong_call_shows_the_usage() {
    for words in [
        &[][..],
        &[SAMPLE, "--at", "1", "2"],
        &[SAMPLE, SAMPLE],
        &[SAMPLE, "--cells"],
        &[SAMPLE, "--slice"],
    ] {
        let output = station(words);
        assert_eq!(output.status.code(), Some(2), "{words:?}");
        assert!(err(&output).contains("\nusage: station FILE "), "{}", err(&output));
        assert_eq!(out(&output), "", "{words:?}");
    }
}

#[test]
fn a_file_that_is_not_there_is_named() {
    let output = station(&["no such file"]);
    assert_eq!(output.status.code(), Some(2));
    assert!(err(&output).starts_with("station: no such file: "), "{}", err(&output));
}

#[test]
fn help_is_printed() {
    let output = station(&["--help"]);
    assert_eq!((output.status.code(), err(&output).as_str()), (Some(0), ""));
    assert!(out(&output).starts_with("usage: station FILE "), "{}", out(&output));
    for option in [
        "--grid GRID",
        "--list",
        "--cells X Y Z",
        "--at X Y Z",
        "--box LX LY LZ HX HY HZ",
        "--cell X Y Z",
        "--point X Y Z",
        "--layer Z",
        "--window W",
    ] {
        assert!(out(&output).contains(option), "{option}");
    }
}

/// An .nvdb file of one segment, with the sample under each name.
fn nvdb(name: &str, codec: u16, names: &[&str]) -> PathBuf {
    edited(name, |bytes| {
        let grid = std::mem::take(bytes);
        let version = (32u32 << 21).to_le_bytes();
        bytes.extend(b"NanoVDB2");
        bytes.extend(version);
        bytes.extend([names.len() as u16, codec].map(u16::to_le_bytes).concat());
        for name in names {
            let mut entry = [0; 176];
            entry[..8].copy_from_slice(&(grid.len() as u64).to_le_bytes());
            entry[136..140].copy_from_slice(&(name.len() as u32).to_le_bytes());
            entry[168..170].copy_from_slice(&codec.to_le_bytes());
            entry[172..].copy_from_slice(&version);
            bytes.extend(entry);
            bytes.extend(name.as_bytes());
        }
        names.iter().for_each(|_| bytes.extend(&grid));
    })
}

/// The only grid of a file is shown as the raw grid is, with a line that says where it stands.
#[test]
fn an_nvdb_file_is_shown_as_it_is() {
    let path = nvdb("one.nvdb", 0, &["density\0"]);
    let output = station(&[path.to_str().unwrap()]);
    assert_eq!((output.status.code(), err(&output).as_str()), (Some(0), ""));
    let [file, raw] = [out(&output), out(&station(&[SAMPLE]))];
    let [file, raw] = [&file, &raw].map(|text| text.lines().collect::<Vec<_>>());
    assert_eq!(file[1], "length           346,024 bytes");
    assert_eq!(file[2], "grid 0           \"density\", 345,824 bytes from byte 200");
    assert_eq!(file[3..10], raw[2..9]);
}

#[test]
fn the_contents_are_listed() {
    let path = nvdb("three.nvdb", 0, &["density\0", "heat", "density"]);
    let output = station(&["--list", path.to_str().unwrap()]);
    assert_eq!((output.status.code(), err(&output).as_str()), (Some(0), ""));
    assert_eq!(
        out(&output).lines().skip(2).collect::<Vec<_>>(),
        [
            "grids            3",
            "grid 0           \"density\", 345,824 bytes from byte 563 (this name stands 2 times)",
            "grid 1           \"heat\", 345,824 bytes from byte 346,387",
            "grid 2           \"density\", 345,824 bytes from byte 692,211 (this name stands 2 times)",
        ]
    );
}

#[test]
fn one_grid_of_several_is_chosen() {
    let path = nvdb("several.nvdb", 0, &["density", "heat", "density"]);
    let path = path.to_str().unwrap();
    for choice in ["1", "heat"] {
        let output = station(&[path, "--grid", choice, "--at", "11", "9", "0"]);
        assert_eq!((output.status.code(), err(&output).as_str()), (Some(0), ""));
        let text = out(&output);
        assert!(text.contains("\ngrid 1           \"heat\", "), "{text}");
        assert!(text.contains("\nat (11, 9, 0)    1 (leaf)\n"), "{text}");
    }
    let wrong = |words: &[&str], fault: &str| {
        let output = station(words);
        assert_eq!(output.status.code(), Some(2));
        assert_eq!(err(&output), format!("station: {path}: {fault}\n"));
    };
    wrong(&[path], "3 grids: choose one by --grid; --list shows them");
    wrong(&[path, "--grid", "smoke"], "no grid is named \"smoke\"; --list shows the names");
    let twice = "\"density\" stands 2 times, as grids 0, 2: choose by number";
    wrong(&[path, "--grid", "density"], twice);
    let output = station(&[path, "--grid", "3"]);
    assert_eq!(output.status.code(), Some(1));
    assert!(
        err(&output).starts_with(&format!("station: {path}: refused 21: ")),
        "{}",
        err(&output)
    );
}

/// Where neither passes, the refusal is that of what the bytes begin as; whoever asks for a grid of a file hears the file's.
#[test]
fn a_file_that_does_not_pass_is_refused_by_its_own_number() {
    assert_refused(&nvdb("packed.nvdb", 1, &["density"]), 20);
    let cut = nvdb("cut.nvdb", 0, &["density"]);
    let bytes = std::fs::read(&cut).unwrap();
    std::fs::write(&cut, &bytes[..bytes.len() - 1]).unwrap();
    assert_refused(&cut, 19);
    for words in [&[SAMPLE, "--list"][..], &[SAMPLE, "--grid", "0"]] {
        let output = station(words);
        assert_eq!(output.status.code(), Some(1));
        assert!(err(&output).contains(": refused 19: "), "{}", err(&output));
    }
}

/// The sample as its own temperature grid, with values below zero and another world box.
#[test]
fn a_temperature_stands_beside_the_density() {
    let heat = edited("heat.grid", |bytes| {
        let root = 672 + u64::from_le_bytes(bytes[696..704].try_into().unwrap()) as usize;
        bytes[root + 28..root + 32].copy_from_slice(&(-5.0f32).to_le_bytes());
        bytes[560..568].copy_from_slice(&(-100.0f64).to_le_bytes());
    });
    let heat = heat.to_str().unwrap();
    let at = ["--at", "9000", "0", "0", "--at", "9", "7", "0"];
    let words = |more: &[&str]| station(&[&[SAMPLE], more, &at[..]].concat());
    let output = words(&["--temperature", heat, "20", "2"]);
    assert_eq!((output.status.code(), err(&output).as_str()), (Some(0), ""));
    let text = out(&output);
    assert!(text.contains(&format!("temperature      {heat}, (value - 20) * 2\n")), "{text}");
    assert!(text.contains("at (9000, 0, 0)  0 (background), temperature -50\n"), "{text}");
    assert!(text.contains("world box        (0, 0, 0) to (6, 6, 6)\n"), "{text}");
    let holds = |step: &str| {
        let line = text.lines().find(|line| line.starts_with(step)).unwrap();
        line.split_whitespace().nth(3).unwrap().to_string()
    };
    assert_eq!(holds("heat "), holds("decode "), "{text}");
    assert_ne!(holds("heat "), "0", "{text}");
    let density = out(&words(&[]));
    let of = |text: &str| {
        text.lines().find(|line| line.starts_with("at (9, 7, 0)")).unwrap().to_string()
    };
    assert!(of(&text).starts_with(&format!("{}, temperature ", of(&density))), "{text}");
    for line in
        density.lines().filter(|line| line.starts_with("greatest") || line.starts_with("clear"))
    {
        assert!(text.contains(line), "{line}: {text}");
    }
}

/// A refusal names the temperature's file; what is known of the density stays shown.
#[test]
fn a_temperature_is_refused_by_its_own_number() {
    let cut = edited("cold.grid", |bytes| bytes.truncate(671));
    for (file, offset, number) in
        [(SAMPLE, "NaN", 27), (SAMPLE, "-inf", 27), (cut.to_str().unwrap(), "NaN", 2)]
    {
        let output = station(&[SAMPLE, "--temperature", file, offset, "1"]);
        let err = err(&output);
        assert_eq!(output.status.code(), Some(1), "{err}");
        assert!(err.starts_with(&format!("station: {file}: refused {number}: ")), "{err}");
        assert!(out(&output).contains("background       0\n"), "{}", out(&output));
    }
    let output = station(&[SAMPLE, "--temperature", "no/such", "0", "1"]);
    assert_eq!(output.status.code(), Some(2));
    assert!(err(&output).starts_with("station: no/such: "), "{}", err(&output));
}

/// The sheet as it is: a heading, and 64 lines of 64 characters, the highest y first.
#[test]
fn a_layer_is_printed_as_it_is() {
    let text = out(&station(&[SAMPLE, "--layer", "0"]));
    let lines: Vec<&str> = text.lines().skip_while(|line| !line.starts_with("layer")).collect();
    assert_eq!(lines[0], "layer   0 3f800000");
    for (y, line) in (0..64).rev().zip(&lines[1..]) {
        assert_eq!((&line[..4], line.len()), (&*format!("{y:>3} "), 68), "{line}");
        assert!(line[4..].bytes().all(|c| c == b'.' || (b'1'..=b'9').contains(&c)), "{line}");
    }
    assert_eq!(&lines[64 - 21][4 + 26..4 + 27], "9");
    let past = station(&[SAMPLE, "--layer", "64"]);
    assert_eq!(past.status.code(), Some(1));
    assert!(err(&past).contains("refused 28: a layer past the last"), "{}", err(&past));
}

/// The greatest over the last two: the refused file among them changes nothing.
#[test]
fn a_window_keeps_the_last_files() {
    let broken = edited("window-broken.grid", |bytes| bytes[0] = 0);
    let broken = broken.to_str().unwrap();
    let one = out(&station(&[SAMPLE]));
    let figure =
        |text: &str| text.lines().rfind(|l| l.starts_with("greatest figure")).unwrap().to_string();
    let output =
        station(&["--window", "2", SAMPLE, broken, SAMPLE, SAMPLE, "--cell", "26", "21", "0"]);
    let text = out(&output);
    assert_eq!(output.status.code(), Some(1));
    assert!(
        err(&output).starts_with(&format!("station: {broken}: refused 3: ")),
        "{}",
        err(&output)
    );
    assert!(text.contains("\nwindow           2 tables of at most 2\n"), "{text}");
    assert!(
        text.contains("\ncell (26, 21, 0)  1\n") || text.contains("\ncell (26, 21, 0) 1\n"),
        "{text}"
    );
    assert_eq!(figure(&text), figure(&one));
    let wide = station(&["--window", "17", SAMPLE]);
    assert_eq!((wide.status.code(), err(&wide).contains("refused 26: ")), (Some(1), true));
}

#[test]
fn a_point_is_shown_with_its_cell_and_its_voxels() {
    let text = out(&station(&[SAMPLE, "--point", "2.5", "2", "0.1"]));
    let lines: Vec<&str> = text.lines().skip_while(|line| !line.starts_with("point")).collect();
    assert!(lines[0].starts_with("point (2.5, 2, 0.1) "), "{text}");
    assert!(lines[1].starts_with("  figure ") && lines[1].contains(" in cell ("), "{text}");
    assert!(lines[2].starts_with("  position "), "{text}");
    assert_eq!(
        lines[3..].iter().take_while(|line| line.starts_with("  voxel (")).count(),
        8,
        "{text}"
    );
    let outside = station(&[SAMPLE, "--point", "7", "1", "1"]);
    assert_eq!(outside.status.code(), Some(1));
    assert!(
        err(&outside).contains("refused 24: a point outside the world box"),
        "{}",
        err(&outside)
    );
}
