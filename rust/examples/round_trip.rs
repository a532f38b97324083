//! A board's record to an IPASIR solver and back.
//!
//!     round_trip FILE.record             values that keep to every rule
//!     round_trip FILE.record VARIABLE    the least value of an integer variable, counted from 0, and values that have it
//!
//! Prints what examples/round_trip.c prints, and ends with its statuses as far as there is a solution (0) or none (3); 1 is
//! for all that goes wrong. Built only with the feature `ipasir`; which solver is linked stands in build.rs.

use basmuthar::{compile, decode, earliest, judge, size};
use std::error::Error;
use std::ffi::{c_int, c_void};
use std::process::ExitCode;
use std::{env, fs};

extern "C" {
    fn ipasir_init() -> *mut c_void;
    fn ipasir_release(solver: *mut c_void);
    fn ipasir_add(solver: *mut c_void, literal_or_0: c_int);
    fn ipasir_assume(solver: *mut c_void, literal: c_int);
    fn ipasir_solve(solver: *mut c_void) -> c_int;
    fn ipasir_val(solver: *mut c_void, literal: c_int) -> c_int;
}

/// A solver that keeps its clauses, and what it learned, from question to question.
struct Solver(*mut c_void);

impl Solver {
    fn new(list: &[i32]) -> Solver {
        let solver = Solver(unsafe { ipasir_init() });
        list.iter().for_each(|number| unsafe { ipasir_add(solver.0, *number) });
        solver
    }

    /// Whether there is a model in which the assumed literals hold.
    fn says_yes(&mut self, assumed: &[i32]) -> Result<bool, String> {
        assumed.iter().for_each(|literal| unsafe { ipasir_assume(self.0, *literal) });
        match unsafe { ipasir_solve(self.0) } {
            10 => Ok(true),
            20 => Ok(false),
            _ => Err("the solver says neither yes nor no".to_string()),
        }
    }

    /// The model of the last yes: byte i is the truth of SAT variable i + 1.
    fn model(&mut self, variables: usize) -> Vec<u8> {
        let is_true = |number| unsafe { ipasir_val(self.0, number) } > 0;
        (1..=variables as i32).map(|number| u8::from(is_true(number))).collect()
    }
}

impl Drop for Solver {
    fn drop(&mut self) {
        unsafe { ipasir_release(self.0) }
    }
}

/// A record, and what of it is wanted again and again. It was accepted by Size.
struct Board {
    record: Vec<u8>,
    variables: usize,
}

#[derive(Default)]
struct Values {
    values: Vec<i32>,
    booleans: Vec<u8>,
}

impl Board {
    fn count(&self, place: usize) -> usize {
        usize::from(u16::from_be_bytes([self.record[place], self.record[place + 1]]))
    }

    fn bounds(&self, variable: usize) -> (i32, i32) {
        let bound = |place| i32::from(self.count(place) as u16 as i16);
        (bound(11 + 4 * variable), bound(13 + 4 * variable))
    }

    /// The number of p(x,c), "x is at most c": the header's m + w + (c - lower + 2).
    fn at_most(&self, variable: usize, hour: i32) -> i32 {
        let width = |(lower, upper)| upper - lower + 2;
        let before: i32 = (0..variable).map(|earlier| width(self.bounds(earlier))).sum();
        self.count(7) as i32 + before + hour - self.bounds(variable).0 + 2
    }

    /// The solver's model, through Decode and Judge.
    fn read_back(&self, solver: &mut Solver) -> Result<Values, String> {
        let model = solver.model(self.variables);
        let (mut values, mut booleans) = (vec![0; self.count(5)], vec![0; self.count(7)]);
        decode(&self.record, &model, &mut values, &mut booleans)
            .and_then(|_| judge(&self.record, &values, &booleans))
            .map_err(|refusal| format!("the solver's model is none: {refusal}"))?;
        Ok(Values { values, booleans })
    }

    fn place(&self, solver: &mut Solver) -> Result<Option<Values>, Box<dyn Error>> {
        let is_yes = solver.says_yes(&[])?;
        Ok(if is_yes { Some(self.read_back(solver)?) } else { None })
    }

    /// Closing's questions: each is p(x,h), assumed for one call. The last yes is at the hour that is found.
    fn earliest(&self, solver: &mut Solver, x: usize) -> Result<Option<Values>, Box<dyn Error>> {
        let (mut last, mut questions) = (Values::default(), 0);
        let found = earliest(&self.record, x, |hour| -> Result<bool, String> {
            let is_yes = solver.says_yes(&[self.at_most(x, hour)])?;
            println!("# x{x} at most {hour}? {}", if is_yes { "yes" } else { "no" });
            questions += 1;
            if is_yes {
                last = self.read_back(solver)?;
                if last.values[x] > hour {
                    return Err("the solver's model does not keep to the question".to_string());
                }
            }
            Ok(is_yes)
        });
        let found = found.map_err(|stopped| stopped.to_string())?;
        Ok(found.map(|hour| {
            println!("# the earliest: x{x} = {hour}, after {questions} questions");
            last
        }))
    }
}

fn main() -> Result<ExitCode, Box<dyn Error>> {
    let words: Vec<String> = env::args().skip(1).collect();
    let (file, variable) = match &words[..] {
        [file] => (file, None),
        [file, variable] => (file, Some(variable.parse()?)),
        _ => return Err("usage: round_trip FILE.record [VARIABLE]".into()),
    };
    let record = fs::read(file)?;
    let sizes = size(&record)?;
    let mut list = vec![0; sizes.numbers];
    compile(&record, &mut list)?;
    let mut solver = Solver::new(&list);
    drop(list);

    let (variables, clauses) = (sizes.variables, sizes.clauses);
    println!("# {variables} SAT variables, {clauses} clauses, a list of {} numbers", sizes.numbers);
    let board = Board { record, variables };
    let found = match variable {
        None => board.place(&mut solver)?,
        Some(x) => board.earliest(&mut solver, x)?,
    };
    Ok(print(found))
}

fn print(found: Option<Values>) -> ExitCode {
    let Some(Values { values, booleans }) = found else {
        println!("# none: there is no solution");
        return ExitCode::from(3);
    };
    println!("# a solution, decoded and judged");
    for (index, value) in values.iter().enumerate() {
        println!("x{index} = {value}");
    }
    for (index, truth) in booleans.iter().enumerate() {
        println!("b{} = {}", index + 1, if *truth == 1 { "yes" } else { "no" });
    }
    ExitCode::SUCCESS
}
