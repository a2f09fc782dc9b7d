//! The refusals in words.

use std::fmt;

/// Why an input was turned away, by its number.
#[derive(Clone, Copy, Debug, PartialEq, Eq, Hash)]
pub struct Refusal {
    number: u32,
}

struct Words {
    number: u32,
    name: &'static str,
    meaning: &'static str,
    advice: &'static str,
}

const DAMAGED: &str = "The file was cut off or damaged: copy or export it again.";

const fn words(
    number: u32,
    name: &'static str,
    meaning: &'static str,
    advice: &'static str,
) -> Words {
    Words { number, name, meaning, advice }
}

const WORDS: &[Words] = &[
    words(
        1,
        "TOO_LONG",
        "more than 4,294,967,295 bytes",
        "Export a smaller part of the hall, or larger voxels.",
    ),
    words(2, "TOO_SHORT", "fewer than 672 bytes: no grid header", DAMAGED),
    words(
        3,
        "HEADER",
        "a header field that does not pass: mark, version, size, type, class, index or count",
        "Hand over one raw Float grid of NanoVDB ABI 32 with its whole length, which begins with \
         NanoVDB0 or NanoVDB1: a density, not a level set. Of an .nvdb file take one grid.",
    ),
    words(
        4,
        "WORLD_BOX",
        "the world box: not finite as f32, a minimum not below its maximum, or an infinite width",
        "Export the grid with its bounding box worked out; a grid without active voxels has none.",
    ),
    words(5, "PAST_END", "a field or a span past the end of the bytes", DAMAGED),
    words(6, "OVERLAP", "two spans overlap", DAMAGED),
    words(7, "KEY_BIT", "a bit of a root key that must be 0", DAMAGED),
    words(
        8,
        "CHILD_TARGET",
        "a child's target: zero in a node, negative, or not a multiple of 32",
        DAMAGED,
    ),
    words(
        9,
        "NO_PLACE",
        "more tiles than lent root places, no whole place for the next node or span, too short a \
         buffer for the text of a layer, or more pieces of a ray than lent places",
        "The program lent tables that are too short: a fault of the program, not of the grid. \
         Report it.",
    ),
    words(
        10,
        "NODE_COUNTS",
        "the node counts in the bytes differ from the nodes that were reached",
        DAMAGED,
    ),
    words(
        11,
        "RECORD",
        "a block repeated or out of range, a link past its table, a child with a nonzero value \
         beside it",
        "The grid holds one block twice: export it again, and report it to the exporter's maker.",
    ),
    words(
        12,
        "NOT_FINITE",
        "a value or a figure that is not finite",
        "The simulation left a NaN or an infinity in the grid: replace it there and export again.",
    ),
    words(
        13,
        "MAP",
        "the map or the translation: not finite, a diagonal that is not positive, another place \
         that is not zero",
        "Export the grid without rotation, shear or mirroring, with voxels of a positive size.",
    ),
    words(
        14,
        "INDEX_BOX",
        "an index minimum above its maximum",
        "Export the grid with its bounding box worked out; a grid without active voxels has none.",
    ),
    words(
        15,
        "NEGATIVE",
        "a negative density or figure",
        "Export the smoke density and no other field, with values below zero set to zero.",
    ),
    words(
        16,
        "COORDINATE",
        "a coordinate that is not finite or lies outside i32",
        "World box, voxel size and translation do not belong together: check the export's units.",
    ),
    words(
        17,
        "SECOND_BOX",
        "a cell's second box has a greater maximum than its first",
        "Rounding under this map would let a cell read low. Export with a voxel size that is a \
         power of two and a translation of whole voxels, zero for one.",
    ),
    words(
        18,
        "TABLES",
        "paired tables of unequal length, blocks that are not three a root, a table that is not of \
         whole nodes, boxes that are not six to a maximum, points that are not three to a density, a table of cells, an answer or a window's \
         memory of another length, a window that claims over w tables or a place past them, a ray's cell outside the table or \
         step other than 1 and -1",
        "The program lent tables that do not belong together: a fault of the program, not of the \
         grid. Report it.",
    ),
    words(
        19,
        "FILE",
        "no .nvdb file that passes: empty, cut off, another mark, no grids, a major other than 32, an \
         entry unlike its segment, an empty name, or a body under 736 bytes",
        "Copy or export the file again, by an exporter of NanoVDB ABI 32.",
    ),
    words(
        20,
        "CODEC",
        "a file whose segment is compressed",
        "Write the file without compression: codec NONE, neither ZIP nor BLOSC.",
    ),
    words(
        21,
        "NO_GRID",
        "a number past the last grid of the file",
        "Ask for the file's contents, and name a grid that stands in it.",
    ),
    words(
        22,
        "RAY",
        "a ray's origin, direction, t_min or t_max that is not finite, or no direction",
        "Ask for a ray with a direction that is not zero and with numbers that a float can hold.",
    ),
    words(
        23,
        "CELLS",
        "a number of cells on an axis that is not 1 to 128",
        "Ask for 1 to 128 cells on each axis; where none are asked for, 64 are built.",
    ),
    words(
        24,
        "OUTSIDE",
        "a point outside the world box, or one that is not a number",
        "Ask for a point inside or on the world box that the grid's first lines show.",
    ),
    words(
        25,
        "CLASSES",
        "limits that are not 1 to 16 finite numbers, each below the next, or a box with a side of more than 1,048,576 coordinates",
        "Name up to 16 limits from the least to the greatest, and a box of at most 1,048,576 \
         coordinates a side.",
    ),
    words(
        26,
        "WINDOW",
        "a window over fewer than 1 or more than 16 tables, or a table of other cells than its window's",
        "Ask for a window of 1 to 16 tables, and build all of them with the same cells.",
    ),
    words(
        27,
        "TEMPERATURE",
        "an offset or a scale of the temperature that is not finite",
        "Name an offset and a scale that are plain numbers: a reading is the value less the offset, times the \
         scale.",
    ),
    words(
        28,
        "LAYER",
        "a layer past the last",
        "Layers are numbered from 0: the last is one less than the cells on the z axis.",
    ),
];

impl Refusal {
    /// The most bytes that are not refused as too long.
    pub const LONGEST: u64 = u32::MAX as u64;

    /// The refusal of more than `LONGEST` bytes, for a caller who will not read them first.
    pub const TOO_LONG: Refusal = Refusal { number: 1 };

    /// The refusal of a number that the library has.
    pub fn new(number: u32) -> Option<Self> {
        let refusal = Refusal { number };
        refusal.words().map(|_| refusal)
    }

    /// `Ok` for 0, which every function of the library answers where it gave a value.
    #[inline]
    pub(crate) fn check(number: u32) -> Result<(), Refusal> {
        match number {
            0 => Ok(()),
            number => Err(Refusal { number }),
        }
    }

    pub fn number(self) -> u32 {
        self.number
    }

    /// Its name: that of its constant.
    pub fn name(self) -> &'static str {
        self.words().map_or("UNKNOWN", |words| words.name)
    }

    /// What was found.
    pub fn meaning(self) -> &'static str {
        self.words().map_or("a number that the library does not have", |words| words.meaning)
    }

    /// What to do about it.
    pub fn advice(self) -> &'static str {
        let other = "Crate and library are of different versions: build both again.";
        self.words().map_or(other, |words| words.advice)
    }

    fn words(self) -> Option<&'static Words> {
        WORDS.iter().find(|words| words.number == self.number)
    }
}

impl fmt::Display for Refusal {
    fn fmt(&self, f: &mut fmt::Formatter) -> fmt::Result {
        write!(f, "refused {}: {}. {}", self.number, self.meaning(), self.advice())
    }
}

impl std::error::Error for Refusal {}

#[cfg(test)]
mod tests {
    use super::*;

    /// The numbers, meanings and names of the table in docs/REFUSALS.md.
    fn readme() -> Vec<(u32, String, String)> {
        let text = include_str!("../../../docs/REFUSALS.md");
        let cells = |line: &str| -> Option<(u32, String, String)> {
            let mut cells = line.strip_prefix('|')?.strip_suffix('|')?.split('|').map(str::trim);
            let number = cells.next()?.parse().ok()?;
            let (meaning, name) = (cells.next()?, cells.next()?);
            Some((number, meaning.to_string(), name.trim_matches('`').to_string()))
        };
        text.lines().filter_map(cells).collect()
    }

    #[test]
    fn the_words_are_those_of_the_readme() {
        let rows = readme();
        assert_eq!(rows.len(), WORDS.len());
        for (number, meaning, name) in rows {
            let refusal = Refusal::new(number).unwrap();
            assert_eq!((refusal.meaning(), refusal.name()), (&*meaning, &*name), "number {number}");
        }
    }

    #[test]
    fn numbers_rise_and_no_others_are_known() {
        let known: Vec<u32> = (0..100).filter(|n| Refusal::new(*n).is_some()).collect();
        assert_eq!(known, WORDS.iter().map(|words| words.number).collect::<Vec<_>>());
        assert_eq!(Refusal::new(0), None);
        assert_eq!(Refusal::new(u32::MAX), None);
    }

    #[test]
    fn zero_is_no_refusal_and_an_unknown_number_is_one() {
        assert_eq!(Refusal::check(0), Ok(()));
        assert_eq!(Refusal::check(7).unwrap_err().number(), 7);
        assert_eq!(Refusal::check(99).unwrap_err().name(), "UNKNOWN");
    }

    #[test]
    fn a_refusal_says_its_number_what_it_means_and_what_to_do() {
        let error: Box<dyn std::error::Error> = Box::new(Refusal::new(15).unwrap());
        assert_eq!(
            error.to_string(),
            "refused 15: a negative density or figure. Export the smoke density and no other field, \
             with values below zero set to zero."
        );
    }

    #[test]
    fn each_sentence_of_advice_ends() {
        assert!(WORDS.iter().all(|words| words.advice.ends_with('.')));
        assert!(WORDS.iter().all(|words| !words.meaning.ends_with('.')));
    }
}
