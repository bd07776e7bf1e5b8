//! Counts of what the arenas of a run were.

use crate::records::*;
use std::collections::BTreeMap;
use std::fmt::Display;

#[derive(Default)]
pub struct Histogram {
    notes: BTreeMap<String, u64>,
    numbers: BTreeMap<u32, u64>,
    details_of_8: BTreeMap<u32, u64>,
    details_of_34: BTreeMap<u32, u64>,
    panic_sites: BTreeMap<String, u64>,
    accepted_kinds: BTreeMap<u32, u64>,
    most_types: usize,
    most_members: usize,
    uniform_codes: BTreeMap<u32, u64>,
    storage_codes: BTreeMap<u32, u64>,
    immediates: BTreeMap<u32, u64>,
}

impl Histogram {
    pub fn count_answer(&mut self, answer: Answer) {
        count(&mut self.numbers, answer[0]);
        if answer[0] == 8 {
            count(&mut self.details_of_8, answer[3]);
        }
        if answer[0] == 34 {
            count(&mut self.details_of_34, answer[3]);
        }
    }

    /// Something worth a number of its own.
    pub fn note(&mut self, what: &str) {
        match self.notes.get_mut(what) {
            Some(count) => *count += 1,
            None => drop(self.notes.insert(what.to_string(), 1)),
        }
    }

    pub fn noted(&self, what: &str) -> u64 {
        self.notes.get(what).copied().unwrap_or(0)
    }

    pub fn answered_34(&self, detail: u32) -> u64 {
        self.details_of_34.get(&detail).copied().unwrap_or(0)
    }

    pub fn answered(&self, number: u32) -> u64 {
        self.numbers.get(&number).copied().unwrap_or(0)
    }

    pub fn count_panic(&mut self, site: &Option<String>) {
        if let Some(site) = site {
            count(&mut self.panic_sites, site.clone());
        }
    }

    pub fn count_accepted(&mut self, arena: &Arena) {
        self.most_types = self.most_types.max(arena.type_count());
        self.most_members = self.most_members.max(arena.member_count());
        for record in arena.types.chunks_exact(TYPE_WORDS) {
            count(&mut self.accepted_kinds, record[0]);
        }
    }

    pub fn count_rows(&mut self, rows: &[Row]) {
        for row in rows {
            count(&mut self.uniform_codes, row[3]);
            count(&mut self.storage_codes, row[8]);
            count(&mut self.immediates, row[13]);
        }
    }

    pub fn print(&self) {
        print_counts("answers", &self.numbers);
        print_counts("details of 8", &self.details_of_8);
        print_counts("details of 34", &self.details_of_34);
        print_counts("panics of 21 and 34", &self.panic_sites);
        print_counts("kinds in accepted arenas", &self.accepted_kinds);
        let (types, members) = (self.most_types, self.most_members);
        if types > 0 {
            println!("most types accepted: {types}, members: {members}");
        }
        print_counts("uniform codes", &self.uniform_codes);
        print_counts("storage codes", &self.storage_codes);
        print_counts("immediates words", &self.immediates);
        for (what, count) in &self.notes {
            println!("{what}: {count}");
        }
    }
}

fn count<K: Ord>(counts: &mut BTreeMap<K, u64>, key: K) {
    *counts.entry(key).or_default() += 1;
}

fn print_counts<K: Display>(title: &str, counts: &BTreeMap<K, u64>) {
    if counts.is_empty() {
        return;
    }
    let parts: Vec<_> = counts
        .iter()
        .map(|(key, n)| format!("{key}: {n}"))
        .collect();
    println!("{title}: {}", parts.join(", "));
}
