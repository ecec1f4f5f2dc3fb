//! The decoder of units, compared.

use crate::inputs::{Random, EDGE_UNITS};
use crate::tally::Kind;
use crate::{library, ours, theirs};

/// Lists of units, as the decoder cuts them.
pub fn lists(seed: u64, count: usize) -> Vec<Kind> {
    let random = &mut Random::new(seed);
    let many = count + count / 2;
    vec![
        kind_of("lists of up to four edge units", short_lists()),
        kind_of(
            "lists of 4 to 24 units, half of them surrogates",
            (0..many).map(|_| random_list(random)),
        ),
        kind_of(
            "lists of 4 to 24 edge units",
            (0..many).map(|_| random_edges(random)),
        ),
        kind_of(
            "texts as units, damaged",
            (0..many).map(|_| damaged_text(random)),
        ),
    ]
}

pub(crate) fn kind_of(name: &'static str, lists: impl IntoIterator<Item = Vec<u16>>) -> Kind {
    let mut kind = Kind::new(name);
    for list in lists {
        let input = || format!("{list:04x?}");
        let ours = ours::units(&list).and(library::units(&list));
        kind.compare(input, &ours, &theirs::units(&list).and(theirs::unit_pieces(&list)));
    }
    kind
}

// All lists of up to four edge units.
pub fn short_lists() -> Vec<Vec<u16>> {
    let mut lists: Vec<Vec<u16>> = vec![Vec::new()];
    let mut from = 0;
    for _ in 0..4 {
        let until = lists.len();
        for at in from..until {
            for unit in EDGE_UNITS {
                let longer = [lists[at].as_slice(), &[unit]].concat();
                lists.push(longer);
            }
        }
        from = until;
    }
    lists
}

pub fn random_list(random: &mut Random) -> Vec<u16> {
    (0..4 + random.below(21))
        .map(|_| match random.below(2) {
            0 => random.unit(),
            _ => 0xd800 + (random.unit() & 0x7ff),
        })
        .collect()
}

fn random_edges(random: &mut Random) -> Vec<u16> {
    (0..4 + random.below(21))
        .map(|_| random.one_of(&EDGE_UNITS))
        .collect()
}

// A text of 4 to 16 characters, of whose units up to three are changed, left out or doubled.
pub fn damaged_text(random: &mut Random) -> Vec<u16> {
    let text: String = (0..4 + random.below(13)).map(|_| random.char()).collect();
    let mut units: Vec<u16> = text.encode_utf16().collect();
    for _ in 0..1 + random.below(3) {
        let place = random.below(units.len());
        match random.below(4) {
            0 => units[place] = random.unit(),
            1 => units[place] = random.one_of(&EDGE_UNITS),
            2 => {
                units.remove(place);
            }
            _ => units.insert(place, units[place]),
        }
    }
    units
}
