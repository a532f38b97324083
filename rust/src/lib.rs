//! Board records to CNF by the order encoding, and models back: a safe wrapper of the proved library.
//!
//! A record has bounded integer variables, Boolean variables and clauses. Nine operations stand over it, its text and
//! solvers' replies:
//!
//! | operation | from | gives |
//! |---|---|---|
//! | [`size`] | a record | the three numbers N, M and K ([`Sizes`]) |
//! | [`compile`] | a record | the clause list, written to a lent list |
//! | [`decode`] | a record and a model | the values and Boolean bytes of the solution that the model stands for |
//! | [`judge`] | a record, values and Boolean bytes | whether they are a solution |
//! | [`image`] | a record, values and Boolean bytes | the plain model of that solution |
//! | [`closing`] | a record, a variable and a solver's replies | its least value over all solutions, or the next question ([`Hour`]) |
//! | [`write_text`] | a record | its clause list as DIMACS CNF, written to lent bytes ([`text`] gives them) |
//! | [`read_text`] | such text | the clause list, written to a lent list, and N, M and K |
//! | [`read_reply`] | N and a solver's reply in text | the model, or that there is none ([`Reply`]) |
//!
//! [`earliest`] puts the questions of [`closing`] one after another. A [`Builder`] puts a board together and writes its
//! record.
//!
//! Every operation takes every input: what is wrong is answered with a [`Refusal`], and then nothing that was lent
//! has changed.
//!
//! # A worked example
//!
//! Two starts x and y in 0..2 that may not be equal: x - y at most -1, or -x + y at most -1.
//!
//! ```
//! let record = [
//!     1, 0, 0, 0, 0x27, // the version, and the length of what follows
//!     0, 2, 0, 0, 0, 1, // two integer variables, no Boolean variable, one clause
//!     0, 0, 0, 2, 0, 0, 0, 2, // x in 0..2, y in 0..2
//!     2, // a clause of two literals, both of them comparisons
//!     2, 2, 1, 0, 0, 0xFF, 0, 1, 0xFF, 0xFF, 0xFF, 0xFF, // x - y at most -1
//!     2, 2, 0xFF, 0, 0, 1, 0, 1, 0xFF, 0xFF, 0xFF, 0xFF, // -x + y at most -1
//! ];
//!
//! // The clause list, for a solver.
//! let sizes = basmuthar::size(&record)?;
//! assert_eq!((sizes.variables, sizes.clauses, sizes.numbers), (10, 17, 53));
//! let mut list = vec![0; sizes.numbers];
//! basmuthar::compile(&record, &mut list)?;
//! assert_eq!(list[..4], [-1, 0, 4, 0]);
//!
//! // The same as text, for a solver that reads files.
//! let text = basmuthar::text(&record)?;
//! assert!(text.starts_with(b"p cnf 10 17\n-1 0\n4 0\n"));
//!
//! // A solver's reply, and its model read back.
//! let reply = b"s SATISFIABLE\nv -1 2 3 4 -5 -6\nv 7 8 9 -10 0\n";
//! let mut model = [0; 10];
//! assert_eq!(basmuthar::read_reply(10, reply, &mut model)?, basmuthar::Reply::Model);
//! assert_eq!(model, [0, 1, 1, 1, 0, 0, 1, 1, 1, 0]);
//! let (mut values, mut booleans) = ([0; 2], []);
//! basmuthar::decode(&record, &model, &mut values, &mut booleans)?;
//! assert_eq!(values, [0, 1]);
//!
//! // It is a solution, and this model is its plain one.
//! basmuthar::judge(&record, &values, &booleans)?;
//! let mut plain = vec![0; sizes.variables];
//! basmuthar::image(&record, &values, &booleans, &mut plain)?;
//! assert_eq!(plain, model);
//!
//! // Equal starts are no solution.
//! let refusal = basmuthar::judge(&record, &[1, 1], &booleans).unwrap_err();
//! assert_eq!(refusal.to_string(), "refusal 13: a clause does not hold, clause 0 counted from 0");
//!
//! // The least y over all solutions. A solver may be asked; here all values are tried.
//! let least = basmuthar::earliest(&record, 1, |hour| {
//!     let is_solution = |x, y| basmuthar::judge(&record, &[x, y], &[]).is_ok();
//!     Ok::<bool, std::io::Error>((0..=2).any(|x| (0..=hour).any(|y| is_solution(x, y))))
//! });
//! assert_eq!(least.unwrap(), Some(0));
//!
//! // The same by hand: the next question after one yes, and what three of them lead to.
//! use basmuthar::Hour;
//! let hour = basmuthar::closing(&record, 1, &[1])?;
//! assert_eq!(hour, Hour::Unfinished { low: 0, high: 2, question: 1 });
//! assert_eq!(basmuthar::closing(&record, 1, &[1, 1, 1])?, Hour::Found(0));
//! # Ok::<(), basmuthar::Refusal>(())
//! ```

mod builder;
mod closing;
mod fields;
mod library;
mod operations;
mod refusal;
mod texts;

pub use builder::{Builder, Comparison, Literal, Term};
pub use closing::{closing, earliest, Hour, Stopped};
pub use fields::{Field, Part};
pub use operations::{compile, decode, image, judge, size, Sizes};
pub use refusal::Refusal;
pub use texts::{read_reply, read_text, text, text_length, write_text, Reply};
