//! The setup: roster, fees and sizes, read from an untyped TOML document.

use toml::value::{Table, Value};

use crate::toml11::to_toml_1_0;
use crate::types::*;

pub const SETUP_K: &str = include_str!("../../../examples/builtin.toml");

pub struct Setup {
    pub roster: Roster,
    pub fees: FeeBook,
    pub tape_limit: u64,
    pub queue: usize,
    pub desks: u8,
    pub feeds: u8,
}

/// The least of C1 to C8 seen so far.
struct Worst(Option<u8>);

impl Worst {
    fn note(&mut self, code: u8) {
        self.0 = Some(self.0.map_or(code, |c| c.min(code)));
    }

    fn keys(&mut self, table: &Table, required: &[&str], optional: &[&str]) {
        if required.iter().any(|k| !table.contains_key(*k)) {
            self.note(2);
        }
        let known = |k: &String| required.contains(&k.as_str()) || optional.contains(&k.as_str());
        if !table.keys().all(known) {
            self.note(3);
        }
    }

    fn integer(&mut self, table: &Table, key: &str, least: i64, most: i64) -> Option<i64> {
        match table.get(key)? {
            Value::Integer(n) if (least..=most).contains(n) => Some(*n),
            Value::Integer(_) => {
                self.note(6);
                None
            }
            _ => {
                self.note(5);
                None
            }
        }
    }

    fn text<'a>(&mut self, table: &'a Table, key: &str) -> Option<&'a str> {
        let value = table.get(key)?;
        if !value.is_str() {
            self.note(5);
        }
        value.as_str()
    }

    fn tables<'a>(&mut self, top: &'a Table, key: &str, most: usize) -> Vec<&'a Table> {
        let Some(value) = top.get(key) else { return Vec::new() };
        let Some(array) = value.as_array() else {
            self.note(5);
            return Vec::new();
        };
        if array.is_empty() {
            self.note(6);
        }
        if array.len() > most {
            self.note(8);
        }
        if !array.iter().all(Value::is_table) {
            self.note(5);
        }
        array.iter().filter_map(Value::as_table).collect()
    }

    fn name(&mut self, table: &Table, longest: usize, allowed: fn(u8) -> bool) -> Option<Name> {
        let text = self.text(table, "name")?.as_bytes();
        let name = Name::new(text).filter(|_| text.len() <= longest && text.iter().all(|&b| allowed(b)));
        if name.is_none() {
            self.note(4);
        }
        name
    }
}

pub fn read_setup(text: &str) -> Result<Setup, Fault> {
    let mut worst = Worst(None);
    let document = to_toml_1_0(text).and_then(|text| text.parse::<Value>().ok());
    let setup = match document {
        Some(Value::Table(top)) => read_top(&top, &mut worst),
        _ => {
            worst.note(1);
            None
        }
    };
    match (worst.0, setup) {
        (None, Some(setup)) => Ok(setup),
        (code, _) => {
            const CODES: [&str; 8] = ["C1", "C2", "C3", "C4", "C5", "C6", "C7", "C8"];
            let code = code.expect("a setup that is not given has a fault");
            Err(Fault { code: CODES[usize::from(code) - 1], status: 3 })
        }
    }
}

fn read_top(top: &Table, worst: &mut Worst) -> Option<Setup> {
    worst.keys(top, &["tape_limit", "queue", "desks", "participant", "symbol"], &["caps", "feeds"]);
    let tape_limit = worst.integer(top, "tape_limit", 1, 10_000_000);
    let queue = worst.integer(top, "queue", 2, 1_024);
    let desks = worst.integer(top, "desks", 1, 16);
    let feeds = if top.contains_key("feeds") { worst.integer(top, "feeds", 1, 8) } else { Some(2) };
    let caps = if top.contains_key("caps") { worst.integer(top, "caps", 2005, 2024) } else { Some(2005) };
    let (fee_cap, rate_cap) = match caps {
        Some(2024) => (1_000_000, 100),
        Some(2005) | None => (3_000_000, 300),
        Some(_) => {
            worst.note(6);
            (3_000_000, 300)
        }
    };

    let mut roster = Roster::default();
    let mut fees = FeeBook::default();
    for (place, table) in worst.tables(top, "participant", MAX_PARTS).into_iter().enumerate() {
        worst.keys(table, &["name", "feed", "fee", "rate"], &[]);
        let name = worst.name(table, 4, |b| b.is_ascii_uppercase() || b.is_ascii_digit());
        let feed = match worst.text(table, "feed").map(str::as_bytes) {
            Some([letter @ b'A'..=b'H']) if i64::from(letter - b'A') < feeds.unwrap_or(8) => Feed(letter - b'A'),
            Some(_) => {
                worst.note(6);
                Feed::A
            }
            None => Feed::A,
        };
        let fee = worst.integer(table, "fee", -10_000_000, 10_000_000).unwrap_or(0);
        let rate = worst.integer(table, "rate", -1_000, 1_000).unwrap_or(0);
        if fee > fee_cap || rate > rate_cap {
            worst.note(7);
        }
        if name.is_some_and(|name| !roster.add_part(name, feed)) {
            worst.note(4);
        }
        if place < MAX_PARTS {
            fees.0[place] = Fee { fee, rate };
        }
    }
    for table in worst.tables(top, "symbol", MAX_SYMS) {
        worst.keys(table, &["name", "lot"], &[]);
        let name = worst.name(table, 8, |b| b.is_ascii_uppercase() || b.is_ascii_digit() || b == b'.');
        let lot = worst.integer(table, "lot", 1, 1_000).unwrap_or(1);
        if name.is_some_and(|name| !roster.add_sym(name, lot as u16)) {
            worst.note(4);
        }
    }
    Some(Setup {
        roster,
        fees,
        tape_limit: tape_limit? as u64,
        queue: queue? as usize,
        desks: desks? as u8,
        feeds: feeds? as u8,
    })
}
