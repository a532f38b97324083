//! The records of boards/refused, each with a note beside it that says the call and the refusal it gets.
//!
//! A note's lines, after those of `#`: the call, the refusal and, where a text stands beside it, the spot in the text.
//! A call is `size`, `compile` and the length of the list, `decode` and the model, `judge` and values | Booleans, or `closing`
//! and variable | replies.

use basmuthar::{closing, compile, decode, judge, size, Refusal};
use std::collections::BTreeSet;
use std::fs;
use std::path::{Path, PathBuf};
use std::str::FromStr;

struct Note {
    record: Vec<u8>,
    call: String,
    refusal: String,
}

fn note_files() -> Vec<PathBuf> {
    let folder = Path::new(env!("CARGO_MANIFEST_DIR")).join("../boards/refused");
    let entries = fs::read_dir(folder).unwrap();
    let mut files: Vec<PathBuf> = entries.map(|entry| entry.unwrap().path()).collect();
    files.retain(|file| file.extension().is_some_and(|ending| ending == "txt"));
    files.sort();
    files
}

fn read_note(file: &Path) -> Note {
    let text = fs::read_to_string(file).unwrap();
    let mut lines = text.lines().filter(|line| !line.starts_with('#'));
    Note {
        record: fs::read(file.with_extension("record")).unwrap(),
        call: lines.next().unwrap().to_string(),
        refusal: lines.next().unwrap().to_string(),
    }
}

/// Numbers parted by spaces.
fn numbers<T: FromStr>(words: &str) -> Vec<T> {
    let words = words.split_whitespace();
    words.map(|word| word.parse().ok().unwrap()).collect()
}

fn called(record: &[u8], call: &str) -> Result<(), Refusal> {
    let (operation, inputs) = call.split_once(' ').unwrap_or((call, ""));
    match operation {
        "size" => size(record).map(|_| ()),
        "compile" => compile(record, &mut vec![0; inputs.parse().unwrap()]).map(|_| ()),
        "decode" => {
            let count = |place| usize::from(u16::from_be_bytes([record[place], record[place + 1]]));
            let (mut values, mut booleans) = (vec![0; count(5)], vec![0; count(7)]);
            decode(record, &numbers(inputs), &mut values, &mut booleans)
        }
        "judge" => {
            let (values, booleans) = inputs.split_once('|').unwrap();
            judge(record, &numbers(values), &numbers(booleans))
        }
        "closing" => {
            let (variable, replies) = inputs.split_once('|').unwrap();
            closing(record, numbers(variable)[0], &numbers(replies)).map(|_| ())
        }
        _ => panic!("no such call: {call}"),
    }
}

#[test]
fn every_record_gets_the_refusal_of_its_note() {
    for file in note_files() {
        let note = read_note(&file);
        let Err(Refusal { number, detail }) = called(&note.record, &note.call) else {
            panic!("{} is accepted", file.display());
        };
        let refusal = format!("refused {number} {detail}");
        assert_eq!(refusal, note.refusal, "{}", file.display());
    }
}

/// 18 and 19 are of text and replies: texts.rs and replies.rs have them.
#[test]
fn there_is_a_record_for_every_refusal() {
    let notes = note_files().into_iter().map(|file| read_note(&file));
    let met: BTreeSet<u64> =
        notes.map(|note| numbers(&note.refusal["refused ".len()..])[0]).collect();
    assert_eq!(met, (1..=17).chain([22, 23]).collect());
}
