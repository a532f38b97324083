//! Signs that people write and a board does not know, with what to write instead.

/// Signs that people write and that have a plain form.
const PLAIN_FORMS: [(char, &str); 9] = [
    ('≤', "<="),
    ('≥', ">="),
    ('≠', "!="),
    ('−', "-"),
    ('–', "-"),
    ('×', "*"),
    ('…', ".."),
    ('“', "\""),
    ('”', "\""),
];

/// Some programs put it unseen at the beginning of a file.
const BYTE_ORDER_MARK: char = '\u{feff}';

/// What to write in the place of a sign that is none here.
pub fn plain_form(sign: char) -> String {
    if sign == BYTE_ORDER_MARK {
        return " (a byte order mark, BOM); save the file as UTF-8 without it".to_string();
    }
    if sign == '.' {
        return "; there are no fractions: 7 h 30 min is seven and a half hours".to_string();
    }
    let found = PLAIN_FORMS.iter().find(|row| row.0 == sign);
    found.map_or(String::new(), |row| format!("; write `{}`", row.1))
}
