//! `files`: the parts of whole .nvdb files through the library beside the reading of document 02 in `file`. Random files of several
//! segments; each with every field damaged in turn, with two fields damaged at once, cut at every boundary and beside it, and with
//! bytes behind it. Of each file grids 0 to one past the last and the greatest n, by body and by name. Some are also handed to the
//! source's `validate_file_envelope`, which refuses the same files but for those compressed by ZIP.

use oracle::file::{self, CODEC, MARKS};
use oracle::gpu::flat::flatten::nanovdb::reach::validate_file_envelope;
use oracle::loader::{ours, Loader, Rust};
use oracle::random::Random;
use std::collections::BTreeMap;
use std::path::PathBuf;
use std::process::exit;

const USAGE: &str = "usage: files SEED FILES [rust]
With `rust` the reading of our own answers even where a library was linked.";

/// How many differences are written out.
const SHOWN: usize = 20;

/// The files of so many cases are handed to the source too, by way of the disk.
const ENVELOPES: u64 = 2;

/// A field: which, where it stands, its bytes, and the segment.
#[derive(Clone, Copy)]
struct Field {
    name: &'static str,
    at: usize,
    width: usize,
    segment: usize,
}

/// A file that passes, its fields, and the places where a header, an entry, a name or a body ends.
#[derive(Default)]
struct Written {
    bytes: Vec<u8>,
    fields: Vec<Field>,
    ends: Vec<usize>,
    grids: u64,
}

impl Written {
    fn field(&mut self, name: &'static str, segment: usize, at: usize, width: usize, number: u64) {
        self.bytes[at..at + width].copy_from_slice(&number.to_le_bytes()[..width]);
        self.fields.push(Field { name, at, width, segment });
    }

    /// Bytes that no test looks at, of any value.
    fn room(&mut self, random: &mut Random, count: usize) -> usize {
        let at = self.bytes.len();
        self.bytes.extend((0..count).map(|_| random.next() as u8));
        self.ends.push(self.bytes.len());
        at
    }

    fn segment(&mut self, random: &mut Random, segment: usize, codec: u64) {
        let count = 1 + random.below(4) as u64;
        let version = 32 << 21 | random.next() & 0x1fffff;
        let mark = u64::from_le_bytes(*random.pick(&MARKS));
        let header = self.room(random, 16);
        self.field("mark", segment, header, 8, mark);
        self.field("version", segment, header + 8, 4, version);
        self.field("grid count", segment, header + 12, 2, count);
        self.field("codec", segment, header + 14, 2, codec);
        let sizes: Vec<usize> = (0..count).map(|_| 736 + random.below(40)).collect();
        for size in &sizes {
            let name = 1 + random.below(12);
            let entry = self.room(random, 176);
            self.field("size", segment, entry, 8, *size as u64);
            self.field("name length", segment, entry + 136, 4, name as u64);
            self.field("entry's codec", segment, entry + 168, 2, codec);
            self.field("entry's version", segment, entry + 172, 4, version);
            self.room(random, name);
        }
        for size in sizes {
            self.room(random, size);
        }
        self.grids += count;
    }

    fn number(&self, field: Field) -> u64 {
        let bytes = &self.bytes[field.at..field.at + field.width];
        bytes.iter().rev().fold(0, |number, byte| number << 8 | u64::from(*byte))
    }

    /// The numbers that a field is set to: about its own, about the limits, its single bits.
    fn others(&self, field: Field) -> Vec<u64> {
        let own = self.number(field);
        let top = u64::MAX >> (64 - 8 * field.width);
        let length = self.bytes.len() as u64;
        let mut numbers = vec![0, 1, own.wrapping_sub(1), own.wrapping_add(1), 735, 736, 737];
        numbers.extend([length - 1, length, length + 1, top / 2, top / 2 + 1, top - 1, top]);
        numbers.extend([31 << 21, 33 << 21, 32 << 21, 32 << 21 | 0x1fffff]);
        numbers.extend(["0", "1", "2", "3"].map(|last| mark(&format!("NanoVDB{last}"))));
        numbers.extend((0..8 * field.width).map(|bit| own ^ 1 << bit));
        // A sum with a size like these passes 2^64.
        numbers.extend((1..4).map(|k| (field.at as u64 + k).wrapping_neg()));
        numbers.retain(|number| *number <= top && *number != own);
        numbers.sort_unstable();
        numbers.dedup();
        numbers
    }
}

fn mark(text: &str) -> u64 {
    u64::from_le_bytes(text.as_bytes().try_into().unwrap())
}

fn with(bytes: &[u8], changes: &[(Field, u64)]) -> Vec<u8> {
    let mut bytes = bytes.to_vec();
    for (field, number) in changes {
        bytes[field.at..field.at + field.width]
            .copy_from_slice(&number.to_le_bytes()[..field.width]);
    }
    bytes
}

struct Tally {
    ours: &'static dyn Loader,
    /// By kind: files, answers, and answers by number.
    kinds: BTreeMap<String, (u64, u64, BTreeMap<u32, u64>)>,
    differ: u64,
    envelope: Envelope,
}

/// Files handed to the source: how many both accept, both refuse, and the source alone accepts, which are compressed.
struct Envelope {
    path: PathBuf,
    asked: bool,
    accepted: u64,
    refused: u64,
    compressed: u64,
}

impl Envelope {
    /// Whether the source says what is due of a file whose own number is this.
    fn agrees(&mut self, bytes: &[u8], number: u32) -> bool {
        std::fs::write(&self.path, bytes).expect("the folder for passing files can be written");
        match (validate_file_envelope(self.path.to_str().unwrap()).is_ok(), number) {
            (true, 0) => self.accepted += 1,
            (true, CODEC) => self.compressed += 1,
            (true, _) | (false, 0) => return false,
            (false, _) => self.refused += 1,
        }
        true
    }
}

impl Tally {
    /// Every answer of one file, of so many grids where it passes.
    fn file(&mut self, kind: &str, bytes: &[u8], grids: u64) {
        let own = file::grids(bytes);
        let number = own.as_ref().err().copied().unwrap_or(0);
        let most = own.map_or(grids, |grids| grids.len() as u64);
        if self.envelope.asked && !self.envelope.agrees(bytes, number) {
            self.differ += 1;
            println!("differs: {kind}: the source does not say {number}");
        }
        let entry = self.kinds.entry(kind.to_string()).or_default();
        entry.0 += 1;
        let past = [most, u64::MAX];
        for n in (0..most.min(8)).chain(past) {
            let pairs = [
                (self.ours.grid_part(bytes, n), Rust.grid_part(bytes, n)),
                (self.ours.grid_name(bytes, n), Rust.grid_name(bytes, n)),
            ];
            for (ours, due) in pairs {
                entry.1 += 1;
                *entry.2.entry(due.0).or_default() += 1;
                if ours != due {
                    self.differ += 1;
                    if self.differ as usize <= SHOWN {
                        println!("differs: {kind}: grid {n}: {ours:?}, due {due:?}");
                    }
                }
            }
        }
    }

    fn print(&self) {
        println!("{:32} {:>9} {:>9}  numbers", "files", "files", "answers");
        for (kind, (files, answers, numbers)) in &self.kinds {
            let numbers: Vec<String> =
                numbers.iter().map(|(number, count)| format!("{number}:{count}")).collect();
            println!("{kind:32} {files:9} {answers:9}  {}", numbers.join(" "));
        }
        let files: u64 = self.kinds.values().map(|kind| kind.0).sum();
        let answers: u64 = self.kinds.values().map(|kind| kind.1).sum();
        let Envelope { accepted, refused, compressed, .. } = self.envelope;
        println!(
            "beside validate_file_envelope: {accepted} accepted by both, {refused} refused by both, {compressed} compressed, which it \
             accepts"
        );
        println!("{files} files, {answers} answers, {} differ", self.differ);
    }

    fn missing(&self, kind: &str, number: u32) -> bool {
        let found = self.kinds.get(kind).is_some_and(|kind| kind.2.contains_key(&number));
        if !found {
            println!("did not come up: {kind}: {number}");
        }
        !found
    }
}

fn main() {
    let words: Vec<String> = std::env::args().skip(1).collect();
    let numbers: Vec<u64> = words.iter().take(2).filter_map(|word| word.parse().ok()).collect();
    let [seed, files] = numbers[..] else {
        eprintln!("{USAGE}");
        exit(2)
    };
    let path = std::env::temp_dir().join(format!("smokegrid-{}.nvdb", std::process::id()));
    let envelope = Envelope { path, asked: true, accepted: 0, refused: 0, compressed: 0 };
    let mut tally = Tally { ours: ours(&words), kinds: BTreeMap::new(), differ: 0, envelope };
    tally.file("empty", &[], 0);
    compressed(&mut tally, &mut Random::new(seed, files));
    for case in 0..files {
        tally.envelope.asked = case < ENVELOPES;
        let random = &mut Random::new(seed, case);
        let mut written = Written::default();
        for segment in 0..1 + random.below(3) {
            written.segment(random, segment, 0);
        }
        tally.file("whole", &written.bytes, written.grids);
        every_field(&mut tally, &written);
        two_fields(&mut tally, random, &written);
        cut(&mut tally, random, &written);
        packed(&mut tally, random);
    }
    let _ = std::fs::remove_file(&tally.envelope.path);
    tally.print();
    exit(if tally.differ == 0 && complete(&tally) { 0 } else { 1 });
}

/// Each field set to each of its other numbers; a fault of a later segment is a kind of its own.
fn every_field(tally: &mut Tally, written: &Written) {
    for field in &written.fields {
        let later = if field.segment > 0 { ", later segment" } else { "" };
        for number in written.others(*field) {
            let bytes = with(&written.bytes, &[(*field, number)]);
            tally.file(&format!("{}{later}", field.name), &bytes, written.grids);
        }
    }
}

/// Two fields at once: any two, and a segment's codecs, all alike, with one field more.
fn two_fields(tally: &mut Tally, random: &mut Random, written: &Written) {
    for _ in 0..200 {
        let change = |random: &mut Random| {
            let field = random.pick(&written.fields);
            let numbers = written.others(field);
            (field, numbers[random.below(numbers.len())])
        };
        let changes = [change(random), change(random)];
        tally.file("two fields", &with(&written.bytes, &changes), written.grids);
    }
    // A byte from one body to the next of its segment: the file passes, with other parts.
    let sizes: Vec<&Field> = written.fields.iter().filter(|field| field.name == "size").collect();
    for pair in sizes.windows(2).filter(|pair| pair[0].segment == pair[1].segment) {
        let [more, less] = [written.number(*pair[0]) + 1, written.number(*pair[1]) - 1];
        let bytes = with(&written.bytes, &[(*pair[0], more), (*pair[1], less)]);
        tally.file("sizes moved", &bytes, written.grids);
    }
    // 20 beside a fault before it, within its entries, among its bodies, and after it.
    let segments = 1 + written.fields.iter().map(|field| field.segment).max().unwrap_or(0);
    let segment = random.below(segments);
    let codecs: Vec<(Field, u64)> = written
        .fields
        .iter()
        .filter(|field| field.segment == segment && field.name.ends_with("codec"))
        .map(|field| (*field, 1))
        .collect();
    tally.file("codec throughout", &with(&written.bytes, &codecs), written.grids);
    for field in &written.fields {
        for number in written.others(*field) {
            let mut changes = codecs.clone();
            changes.push((*field, number));
            let kind = format!("codec throughout, {}", field.name);
            tally.file(&kind, &with(&written.bytes, &changes), written.grids);
        }
    }
}

/// Cut at and beside each end, and with bytes behind the last body.
fn cut(tally: &mut Tally, random: &mut Random, written: &Written) {
    for end in &written.ends {
        for length in [end - 1, *end, end + 1] {
            let length = length.min(written.bytes.len());
            tally.file("cut", &written.bytes[..length], written.grids);
        }
    }
    let mut longer = written.bytes.clone();
    for _ in 0..17 {
        longer.push(random.next() as u8);
        tally.file("longer", &longer, written.grids);
    }
}

/// A segment with a codec behind one without, cut anywhere: 20 once its names are whole.
fn packed(tally: &mut Tally, random: &mut Random) {
    let mut written = Written::default();
    written.segment(random, 0, 0);
    let codec = 1 + random.below(2) as u64;
    written.segment(random, 1, codec);
    tally.file("codec in a later segment", &written.bytes, written.grids);
    for end in &written.ends {
        tally.file("codec in a later segment, cut", &written.bytes[..end - 1], written.grids);
    }
}

/// What passes for ZIP: a length of 8 bytes before each body, of any number. Here none follow.
fn compressed(tally: &mut Tally, random: &mut Random) {
    let mut written = Written::default();
    written.segment(random, 0, 1);
    let bodies = written.ends[2 * written.grids as usize];
    let mut bytes = written.bytes[..bodies].to_vec();
    for _ in 0..written.grids {
        bytes.extend(0u64.to_le_bytes());
    }
    tally.file("compressed", &bytes, written.grids);
}

/// Every kind has the numbers that it can give.
fn complete(tally: &Tally) -> bool {
    let fields = ["mark", "version", "grid count", "codec", "size", "name length"];
    let entries = ["entry's codec", "entry's version"];
    let mut due =
        vec![("empty".to_string(), 19), ("whole".to_string(), 0), ("whole".to_string(), 21)];
    for field in fields.iter().chain(&entries) {
        due.push((field.to_string(), 19));
        due.push((format!("{field}, later segment"), 19));
        due.push((format!("codec throughout, {field}"), 19));
        due.push((format!("codec throughout, {field}"), 20));
    }
    // Another mark that passes, and sizes that make up for each other.
    for (kind, number) in
        [("mark", 0), ("sizes moved", 0), ("cut", 0), ("cut", 19), ("cut", 21), ("longer", 19)]
    {
        due.push((kind.to_string(), number));
    }
    for (kind, number) in [("two fields", 19), ("two fields", 20), ("codec throughout", 20)] {
        due.push((kind.to_string(), number));
    }
    due.push(("codec in a later segment".to_string(), 20));
    due.extend([19, 20].map(|number| ("codec in a later segment, cut".to_string(), number)));
    due.push(("compressed".to_string(), 20));
    let Envelope { accepted, refused, compressed, .. } = tally.envelope;
    let both = accepted > 0 && refused > 0 && compressed > 0;
    let missing = due.iter().filter(|(kind, number)| tally.missing(kind, *number)).count();
    missing == 0 && both
}
