//! Texts from a board as they may stand in a page.

/// A text of which no sign is read as one of the page's own; what could not be seen, or turns the reading round, is named.
pub fn escaped(text: &str) -> String {
    text.chars().map(escaped_sign).collect()
}

/// The same, kept apart from the text about it, whichever way it is read.
pub fn kept_apart(text: &str) -> String {
    format!("<bdi>{}</bdi>", escaped(text))
}

/// What a text takes of a line in a picture, about: signs of eastern scripts and pictures are as wide as two.
pub fn columns(text: &str) -> i64 {
    text.chars().map(|sign| if sign < '\u{1100}' { 1 } else { 2 }).sum()
}

/// The beginning of a text that takes so many columns, with `…` where something is cut off.
pub fn cut(text: &str, room: i64) -> String {
    if columns(text) <= room {
        return text.to_string();
    }
    let mut left = room - 1;
    let fits = |sign: &char| {
        left -= columns(sign.encode_utf8(&mut [0; 4]));
        left >= 0
    };
    let kept: String = text.chars().take_while(fits).collect();
    format!("{}…", kept.trim_end())
}

fn escaped_sign(sign: char) -> String {
    match sign {
        '&' => "&amp;".to_string(),
        '<' => "&lt;".to_string(),
        '>' => "&gt;".to_string(),
        '"' => "&quot;".to_string(),
        '\'' => "&#39;".to_string(),
        '\t' => " ".to_string(),
        sign if is_unseen(sign) => format!("[U+{:04X}]", u32::from(sign)),
        sign => sign.to_string(),
    }
}

/// Control characters, signs without width, and those that change the direction of what follows. The two joiners, which
/// some scripts need, change nothing else.
fn is_unseen(sign: char) -> bool {
    let is_without_width = matches!(
        sign,
        '\u{ad}'
            | '\u{61c}'
            | '\u{180e}'
            | '\u{200b}'
            | '\u{200e}'..='\u{200f}'
            | '\u{2028}'..='\u{202e}'
            | '\u{2060}'..='\u{206f}'
            | '\u{feff}'
            | '\u{fff9}'..='\u{fffb}'
            | '\u{e0000}'..='\u{e007f}'
    );
    sign.is_control() || is_without_width
}

#[cfg(test)]
mod tests {
    use super::*;

    #[test]
    fn nothing_of_a_text_is_a_sign_of_the_page() {
        let text = "a<b>\"c' & d\u{202e}\u{7}\u{200d}e";
        let expected = "a&lt;b&gt;&quot;c&#39; &amp; d[U+202E][U+0007]\u{200d}e";
        assert_eq!(escaped(text), expected);
    }

    #[test]
    fn a_long_text_is_cut_to_its_room() {
        let rows = [
            ("mugs", 4, "mugs"),
            ("mugs", 3, "mu…"),
            ("Mugs, glaze", 7, "Mugs,…"),
            ("茶碗", 3, "茶…"),
        ];
        for (text, room, expected) in rows {
            assert_eq!(cut(text, room), expected);
        }
    }
}
