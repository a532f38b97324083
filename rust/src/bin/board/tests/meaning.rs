//! What a rule says in the text is what its clauses say: drawn rules, tried at all values.

use super::dice::Dice;
use crate::board::Setting;
use crate::judging::clauses_hold;
use crate::sheet::read_sheet;

const DECLARED: &str = "number a, b, c : -2 .. 2\nchoice s, t\n";
const NUMBERS: [&str; 3] = ["a", "b", "c"];
const CHOICES: [&str; 2] = ["s", "t"];

type Sign = (&'static str, fn(&i64, &i64) -> bool);

const SIGNS: [Sign; 6] = [
    ("<=", i64::le),
    (">=", i64::ge),
    ("<", i64::lt),
    (">", i64::gt),
    ("=", i64::eq),
    ("!=", i64::ne),
];

/// A part of a rule: as text, and as what it means.
struct Part {
    text: String,
    means: Box<dyn Fn(&Setting) -> bool>,
}

/// A side of a comparison: factors of a, b and c in any order, more than once, and constants.
struct Side {
    text: String,
    factors: [i64; 3],
    constant: i64,
}

impl Side {
    fn at(&self, setting: &Setting) -> i64 {
        let products = self.factors.iter().zip(&setting.numbers);
        let sum: i64 = products.map(|(factor, value)| factor * i64::from(*value)).sum();
        sum + self.constant
    }
}

fn side(dice: &mut Dice) -> Side {
    let mut side = Side { text: String::new(), factors: [0; 3], constant: 0 };
    for place in 0..dice.between(1, 4) {
        let (factor, number) = (dice.between(-3, 3), dice.between(0, 3) as usize);
        side.text += match (place, factor < 0) {
            (_, true) => " - ",
            (0, false) => "",
            (_, false) => " + ",
        };
        match NUMBERS.get(number) {
            Some(name) if factor.abs() == 1 => side.text += name,
            Some(name) => side.text += &format!("{}*{name}", factor.abs()),
            None => side.text += &factor.abs().to_string(),
        }
        match side.factors.get_mut(number) {
            Some(factors) => *factors += factor,
            None => side.constant += factor,
        }
    }
    side
}

/// A comparison in which some name is left when both sides are brought together.
fn comparison(dice: &mut Dice) -> Part {
    let (left, right) = (side(dice), side(dice));
    if left.factors == right.factors {
        return comparison(dice);
    }
    let (sign, meaning) = dice.pick(&SIGNS);
    Part {
        text: format!("{} {sign} {}", left.text, right.text),
        means: Box::new(move |setting| meaning(&left.at(setting), &right.at(setting))),
    }
}

fn choice(dice: &mut Dice) -> Part {
    let (number, wanted) = (dice.between(0, 1) as usize, dice.between(0, 1));
    let not = if wanted == 1 { "" } else { "not " };
    Part {
        text: format!("{not}{}", CHOICES[number]),
        means: Box::new(move |setting| i64::from(setting.choices[number]) == wanted),
    }
}

fn settings() -> Vec<Setting> {
    let digits = |mut index: i32| {
        [5, 5, 5, 2, 2].map(|base| {
            let digit = index % base;
            index /= base;
            digit
        })
    };
    let setting = |[a, b, c, s, t]: [i32; 5]| Setting {
        numbers: vec![a - 2, b - 2, c - 2],
        choices: vec![s as u8, t as u8],
    };
    (0..500).map(digits).map(setting).collect()
}

fn part(dice: &mut Dice) -> Part {
    if dice.between(0, 2) == 0 {
        choice(dice)
    } else {
        comparison(dice)
    }
}

fn parts(dice: &mut Dice) -> Vec<Part> {
    (0..dice.between(1, 3)).map(|_| part(dice)).collect()
}

fn joined(parts: &[Part], word: &str) -> String {
    parts.iter().map(|part| part.text.as_str()).collect::<Vec<_>>().join(word)
}

/// The clauses of a rule's text say what it means, at all values.
fn says(rule: &str, settings: &[Setting], means: impl Fn(&Setting) -> bool) {
    let sheet = read_sheet(&format!("{DECLARED}{rule}\n")).unwrap();
    for setting in settings {
        let holds = clauses_hold(&sheet, &sheet.board.clauses, setting);
        assert_eq!(holds, Ok(means(setting)), "{rule} at {setting:?}");
    }
}

#[test]
fn clauses_say_what_the_rule_says() {
    let (mut dice, settings) = (Dice::new(1), settings());
    for _ in 0..2_000 {
        let parts = parts(&mut dice);
        let means = |setting: &Setting| parts.iter().any(|part| (part.means)(setting));
        says(&joined(&parts, " or "), &settings, means);
    }
}

#[test]
fn clauses_say_what_a_condition_says() {
    let (mut dice, settings) = (Dice::new(4), settings());
    for _ in 0..1_000 {
        let (conditions, parts) = (parts(&mut dice), parts(&mut dice));
        let rule = format!("if {} then {}", joined(&conditions, " and "), joined(&parts, " or "));
        let means = |setting: &Setting| {
            !conditions.iter().all(|part| (part.means)(setting))
                || parts.iter().any(|part| (part.means)(setting))
        };
        says(&rule, &settings, means);
    }
}
