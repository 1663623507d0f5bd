//! Lists of wanted records.

use super::Random;
use crate::reader::{self, Record};
use crate::writer::State;
use std::collections::BTreeMap;

/// Wanted records: the present settings with some valves gone, some words
/// changed and some valves added; now and then with a fault, or anything.
pub fn some_records(random: &mut Random, medium: &[u8], state: &State) -> Vec<Record> {
    let (gone, changed) = (random.one_of(&[1, 2, 5, 300]), random.one_of(&[1, 2, 5, 300]));
    let added = random.one_of(&[0, 1, 20, 60, 96, 97, 192, 250]);
    let mut records = BTreeMap::new();
    for &place in &state.index {
        let word = reader::node(medium, place).unwrap_or(7);
        if !random.one_in(gone) {
            records.insert(place.valve, if random.one_in(changed) { random.word() } else { word });
        }
    }
    let (valves, most) = (random.one_of(&[200, 32768]), random.one_of(&[192, 192, 193]));
    for _ in 0..random.below(added + 1) {
        if records.len() < most {
            records.insert(random.from_to(1, valves - 1) as u16, random.word());
        }
    }
    if random.one_in(12) && records.len() < most {
        records.insert(0, random.word());
    }
    let records = records.into_iter().map(|(valve, word)| Record { valve, word });
    let mut records: Vec<Record> = records.collect();
    if random.one_in(6) {
        damage_records(random, &mut records);
    }
    records
}

/// Changes one thing about a list of records, so that it is refused or not.
fn damage_records(random: &mut Random, records: &mut Vec<Record>) {
    let any = |random: &mut Random| Record { valve: random.bits() as u16, word: random.word() };
    let length = records.len();
    match random.below(7) {
        0 if length > 0 => records.push(records[random.below(length)]),
        1 if length > 0 => records[random.below(length)].valve = random.bits() as u16,
        2 if length > 1 => records.swap(length - 2, length - 1),
        3 => records.push(Record { valve: random.one_of(&[32767, 32768, 65535]), word: 1 }),
        4 => *records = (0..random.one_of(&[193, 194, 32768])).map(setting_record).collect(),
        5 => *records = (0..random.below(400)).map(|_| any(random)).collect(),
        _ => *records = (0..40000).map(setting_record).collect(),
    }
}

/// A record of this valve.
fn setting_record(valve: u16) -> Record {
    Record { valve, word: valve.into() }
}
