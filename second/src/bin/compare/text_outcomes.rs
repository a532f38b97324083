//! Counts of texts and replies: those read, and those refused by what is wrong with them.

use second::texts::{clause_text, not_once, reply_text, spoilt_reply, spoilt_text};
use std::collections::BTreeMap;

/// What became of a text.
#[derive(Debug, Clone, Copy, PartialEq, Eq, PartialOrd, Ord)]
pub enum Became {
    TextRead,
    TextRefused,
    ReplyRead,
    ReplyRefused,
    NotOnce,
}

/// The kinds of texts that are no setting of drawn ones.
pub const WRITTEN: &str = "what was written";
pub const NONE: &str = "none";

impl Became {
    const ALL: [Became; 5] = [
        Became::TextRead,
        Became::TextRefused,
        Became::ReplyRead,
        Became::ReplyRefused,
        Became::NotOnce,
    ];

    fn name(self) -> &'static str {
        match self {
            Became::TextRead => "text read",
            Became::TextRefused => "text refused with 18",
            Became::ReplyRead => "reply read",
            Became::ReplyRefused => "reply refused with 18",
            Became::NotOnce => "reply refused with 19",
        }
    }

    /// The kinds of texts that have to be met.
    fn kinds(self) -> Vec<&'static str> {
        match self {
            Became::TextRead => [&clause_text::SETTINGS[..], &[WRITTEN]].concat(),
            Became::TextRefused => spoilt_text::names().collect(),
            Became::ReplyRead => [&reply_text::ORDERS[..], &reply_text::SETTINGS, &[NONE]].concat(),
            Became::ReplyRefused => spoilt_reply::names().collect(),
            Became::NotOnce => not_once::WAYS.to_vec(),
        }
    }
}

#[derive(Default)]
pub struct TextOutcomes {
    met: BTreeMap<(Became, &'static str), u64>,
    /// Texts damaged at each byte: the texts, the damaged, and those of them that were read.
    pub every_byte: [u64; 3],
}

impl TextOutcomes {
    pub fn met(&mut self, became: Became, kind: &'static str) {
        *self.met.entry((became, kind)).or_default() += 1;
    }

    fn count(&self, became: Became, kind: &'static str) -> u64 {
        self.met.get(&(became, kind)).copied().unwrap_or(0)
    }

    /// The kinds that no text had.
    pub fn never_met(&self) -> Vec<String> {
        let mut names = Vec::new();
        for became in Became::ALL {
            let kinds = became.kinds().into_iter();
            let never = kinds.filter(|&kind| self.count(became, kind) == 0);
            names.extend(never.map(|kind| format!("{}: {kind}", became.name())));
        }
        names
    }

    pub fn table(&self) -> String {
        let mut text = String::new();
        for became in Became::ALL {
            for kind in became.kinds() {
                let count = self.count(became, kind);
                text += &format!("{count:>9} {}: {kind}\n", became.name());
            }
        }
        let [texts, damaged, read] = self.every_byte;
        text += &format!("every byte: {texts} texts and replies, {damaged} damaged ones, ");
        text += &format!("{read} of them read, {} refused\n", damaged - read);
        text
    }
}
