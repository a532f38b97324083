//! Tries all values of a small record: `try_all FILE.record` prints whether there is a solution, how many there are, and the
//! least value of each integer variable over all of them: `SATISFIABLE 12 least -3 0 4`.
//!
//! Every setting within the bounds goes to Judge; every solution goes to Image and from there through Decode back.

use std::process::ExitCode;
use std::{env, fs};

/// Records with more settings than this are left alone.
const MOST_SETTINGS: u64 = 200_000;

/// The bounds of every place of a setting: the integer variables, and then the Boolean variables from 0 to 1.
struct Places {
    bounds: Vec<(i32, i32)>,
    integers: usize,
}

/// How many solutions there are, and the least value of each integer variable in them.
struct Found {
    solutions: u64,
    least: Vec<i32>,
}

fn main() -> ExitCode {
    let file = env::args().nth(1).expect("try_all FILE.record");
    let record = fs::read(file).expect("a record");
    let variables = match basmuthar::size(&record) {
        Ok(sizes) => sizes.variables,
        Err(refusal) => {
            println!("{refusal}");
            return ExitCode::FAILURE;
        }
    };
    let places = places(&record);
    if places.settings() > MOST_SETTINGS {
        println!("LARGE");
        return ExitCode::SUCCESS;
    }
    let found = try_all(&record, &places, variables);
    let least: Vec<String> = found.least.iter().map(i32::to_string).collect();
    match found.solutions {
        0 => println!("UNSATISFIABLE"),
        count => println!("SATISFIABLE {count} least {}", least.join(" ")),
    }
    ExitCode::SUCCESS
}

fn places(record: &[u8]) -> Places {
    let two = |place: usize| [record[place], record[place + 1]];
    let bound = |place| i32::from(i16::from_be_bytes(two(place)));
    let [integers, booleans] = [5, 7].map(|place| usize::from(u16::from_be_bytes(two(place))));
    let mut bounds: Vec<(i32, i32)> =
        (0..integers).map(|index| (bound(11 + 4 * index), bound(13 + 4 * index))).collect();
    bounds.extend(vec![(0, 1); booleans]);
    Places { bounds, integers }
}

impl Places {
    fn settings(&self) -> u64 {
        let widths = self.bounds.iter().map(|(lower, upper)| (upper - lower + 1) as u64);
        widths.fold(1, u64::saturating_mul)
    }

    /// Moves on to the next setting, or answers that this was the last.
    fn next(&self, setting: &mut [i32]) -> bool {
        for (value, (lower, upper)) in setting.iter_mut().zip(&self.bounds) {
            if *value < *upper {
                *value += 1;
                return true;
            }
            *value = *lower;
        }
        false
    }
}

fn try_all(record: &[u8], places: &Places, variables: usize) -> Found {
    let mut setting: Vec<i32> = places.bounds.iter().map(|bounds| bounds.0).collect();
    let mut found = Found { solutions: 0, least: vec![i32::MAX; places.integers] };
    loop {
        let (values, bits) = setting.split_at(places.integers);
        let booleans: Vec<u8> = bits.iter().map(|bit| *bit as u8).collect();
        if basmuthar::judge(record, values, &booleans).is_ok() {
            there_and_back(record, values, &booleans, variables);
            found.solutions += 1;
            for (least, value) in found.least.iter_mut().zip(values) {
                *least = (*least).min(*value);
            }
        }
        if !places.next(&mut setting) {
            return found;
        }
    }
}

/// Image's model of a solution decodes to the solution.
fn there_and_back(record: &[u8], values: &[i32], booleans: &[u8], variables: usize) {
    let mut model = vec![7; variables];
    basmuthar::image(record, values, booleans, &mut model).expect("a solution has an image");
    let (mut values_back, mut booleans_back) = (vec![0; values.len()], vec![7; booleans.len()]);
    basmuthar::decode(record, &model, &mut values_back, &mut booleans_back)
        .expect("an image is a model");
    assert_eq!((&values_back[..], &booleans_back[..]), (values, booleans));
}
