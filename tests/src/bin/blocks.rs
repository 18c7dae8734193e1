//! Makes blocks, and what the reference says that the programs print for them, so that tests/run can run the programs and compare:
//!
//!     blocks FOLDER [SEED]
//!
//! writes list-0, list-1, .. and first-0, second-0, first-1, ..: blocks to list, and pairs of blocks to read a record of; `questions`: a
//! line "number meter ordinal" for each pair; and `list.expected` and `read.expected`: for each block in turn the line "== list 0" or
//! "== read 0 meter ordinal", and what is printed. The same seed, the same files.

use reference::antennas::line;
use reference::inputs::{antenna_block, block_to_list, question, Random};
use reference::listing::listing;
use reference::pick;
use reference::store::records;
use std::path::{Path, PathBuf};

const BLOCKS: u64 = 500;
const PAIRS: u64 = 500;
const SEED: u64 = 1;

/// A text and how its lines begin that must be among those of many: with fewer, the blocks would be too tame.
fn assert_meets(text: &str, beginnings: &[&str]) {
    for &begins in beginnings {
        assert!(text.lines().any(|line| line.starts_with(begins)), "no line begins with '{begins}': the blocks are too tame");
    }
}

struct Folder(PathBuf);

impl Folder {
    fn write(&self, name: &str, bytes: impl AsRef<[u8]>) {
        let path = self.0.join(name);
        std::fs::write(&path, bytes).unwrap_or_else(|error| panic!("{}: {error}", path.display()));
    }
}

fn blocks_to_list(folder: &Folder, seed: u64) {
    let mut expected = String::new();
    for i in 0..BLOCKS {
        let block = block_to_list(&mut Random::new(seed, 100, i));
        folder.write(&format!("list-{i}"), &block);
        expected += &format!("== list {i}\n{}", listing(&block));
    }
    assert_meets(&expected, &["refused 11", "refused 12", "refused 13", "refused 14", "refused 15", "refused 16", "refused 17", "32 "]);
    for end in [" none\n", " - -\n", " period\n=="] {
        assert!(expected.contains(end), "no line ends with '{end}': the blocks are too tame");
    }
    folder.write("list.expected", expected);
}

fn pairs_to_read(folder: &Folder, seed: u64) {
    let (mut questions, mut expected) = (String::new(), String::new());
    for i in 0..PAIRS {
        let random = &mut Random::new(seed, 101, i);
        let (first_damaged, second_damaged) = pick!(random, (false, false), (true, false), (true, false), (true, true), (true, true));
        let first = antenna_block(random, i % 16 == 0, first_damaged);
        let second = antenna_block(random, i % 16 == 1, second_damaged);
        let (meter, ordinal) = question(random, if records(&first).is_ok() { &first } else { &second });
        folder.write(&format!("first-{i}"), &first);
        folder.write(&format!("second-{i}"), &second);
        questions += &format!("{i} {meter} {ordinal}\n");
        expected += &format!("== read {i} {meter} {ordinal}\n{}", line(&first, &second, meter, ordinal));
    }
    let refusals = ["refused 11 at", "refused 12 at", "refused 13 at", "refused 14 at", "refused 15 at", "refused 16 at", "refused 18"];
    assert_meets(&expected, &refusals);
    assert!(expected.contains("refused 14\n"), "a question that names no meter");
    assert_meets(&expected, &["1 ", "2 "]);
    folder.write("questions", questions);
    folder.write("read.expected", expected);
}

fn main() {
    let mut words = std::env::args().skip(1);
    let folder = Folder(Path::new(&words.next().expect("usage: blocks FOLDER [SEED]")).to_path_buf());
    let seed = words.next().map_or(SEED, |text| text.parse().expect("a seed is a number"));
    std::thread::scope(|scope| {
        scope.spawn(|| blocks_to_list(&folder, seed));
        scope.spawn(|| pairs_to_read(&folder, seed));
    });
}
