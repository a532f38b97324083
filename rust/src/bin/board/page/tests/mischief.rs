//! A board made to break the page does not: whatever its texts hold, the page has its own tags and no others.

use super::{has, has_not, page_of};
use crate::page::Page;

const TAGS: &str = "!doctype html head meta title style body section h1 h2 h3 p b bdi i br code div span ul ol li table thead \
    tbody tr th td svg defs g use pattern rect circle line path text";

/// Tags that have no end of their own.
const SINGLE: [&str; 3] = ["!doctype", "meta", "br"];

const ATTRIBUTES: &str = "html lang charset http-equiv content name class id x y x1 x2 y1 y2 width height d r cx cy fill stroke \
    stroke-width href role aria-label aria-hidden data-is patternUnits patternTransform";

fn is_of(list: &str, name: &str) -> bool {
    list.split_whitespace().any(|word| word == name)
}

/// Each piece of a page that is a tag, without its `<` and `>`.
fn tags(text: &str) -> Vec<&str> {
    let ends = text.split('<').skip(1).map(|piece| piece.split_once('>').expect("a tag ends").0);
    ends.collect()
}

/// The names of a tag's attributes; each value is between two `"`.
fn attributes(tag: &str) -> Vec<&str> {
    let outside = tag.split('"').step_by(2);
    outside.flat_map(str::split_whitespace).skip(1).map(|word| word.trim_end_matches('=')).collect()
}

/// Every tag and attribute is one of the page's own, and every tag ends where it should.
fn is_whole(page: &Page) {
    let (before, rest) = page.text.split_once("<style>").unwrap();
    let (style, after) = rest.split_once("</style>").unwrap();
    assert!(!style.contains('<'));
    let text = format!("{before}{after}");
    let mut open: Vec<&str> = Vec::new();
    for tag in tags(&text) {
        if let Some(name) = tag.strip_prefix('/') {
            assert_eq!(open.pop(), Some(name), "{tag}");
            continue;
        }
        let name = tag.split([' ', '/']).next().unwrap();
        assert!(is_of(TAGS, name), "{tag}");
        let names = attributes(tag.trim_end_matches('/'));
        assert!(names.iter().all(|name| is_of(ATTRIBUTES, name)), "{tag}");
        if !tag.ends_with('/') && !SINGLE.contains(&name) {
            open.push(name);
        }
    }
    assert_eq!(open, Vec::<&str>::new());
}

const NASTY: &str = "<script>alert(1)</script>'><img src=x onerror=alert(1)>--></style></svg>]]>&lt;{}%\u{202e}\u{7}";

fn nasty_board() -> String {
    format!(
        "# {NASTY} \"\nweek from Monday 00:00 step 1 h\nmachine kiln \"{NASTY}\"\n\
         job a \"{NASTY}\" on kiln takes 4 h then 2 h script # \"> {NASTY}\n\
         job b \"x\" on kiln takes 4 h # {NASTY} \"\n\
         closed kiln : every day 21:00 .. 07:00 # {NASTY}\n\
         number n : 0 .. 3 # {NASTY}\nn >= 1 # \"><img src=x onerror=alert(1)> {NASTY}\n"
    )
}

#[test]
fn a_board_made_to_break_the_page_does_not() {
    for values in [
        "a=Mon 08:00 b=Mon 10:00 n=0",
        "a=Mon 08:00 b=Tue 10:00 n=2",
        "a=Mon 22:00 b=Wed 01:00 n=9",
    ] {
        let page = page_of(&nasty_board(), values);
        is_whole(&page);
        has_not(
            &page,
            &["<script", "<img", "onerror=alert(1)>", "]]>", "-->", "\u{202e}", "\u{7}"],
        );
        has(
            &page,
            &["&lt;script&gt;alert(1)&lt;/script&gt;&#39;&gt;&lt;img", "[U+202E]", "&amp;lt;{}%"],
        );
    }
}

#[test]
fn an_ordinary_page_is_whole_too() {
    let text = "machine loom\njob rug on loom takes 30 then 4 tidying : 0 .. 90\njob mat on loom takes 5 : 0 .. 90\n";
    for values in ["rug=0 mat=40", "rug=0 mat=20", "rug=50 mat=44"] {
        is_whole(&page_of(text, values));
    }
}

#[test]
fn nothing_is_fetched_from_anywhere() {
    let page = page_of(&nasty_board(), "a=Mon 08:00 b=Tue 10:00 n=2");
    has_not(&page, &["http:", "https:", "@import", " src=\"", "<link", "<base", "javascript:"]);
    has(&page, &["default-src 'none'; style-src 'unsafe-inline'"]);
    let links = page.text.split("href=\"").skip(1).chain(page.text.split("url(").skip(1));
    assert!(links.clone().count() > 3 && links.clone().all(|link| link.starts_with('#')));
}

#[test]
fn a_text_that_is_read_from_right_to_left_is_kept_apart() {
    let text = "week from Monday 00:00 step 1 h\nmachine kiln \"\u{641}\u{631}\u{646}\"\n\
        job a \"\u{643}\u{623}\u{633}\" on kiln takes 8 h\n";
    let page = page_of(text, "a=Mon 08:00");
    has(
        &page,
        &[
            "1 &#x2068;\u{643}\u{623}\u{633}&#x2069;</text>",
            "<td data-is=\"Job\"><bdi>\u{643}\u{623}\u{633}</bdi> <span",
            "<h2><bdi>\u{641}\u{631}\u{646}</bdi> <span",
        ],
    );
}
