//! What must happen with window books (document 02, E11).

use journal::{Answer, Call};
use judge::numbers::bits;
use judge::refusals::{capacity, MOST_SAMPLES};
use judge::sums::{self, folded_afresh, PLACES};
use judge::Sample;

use crate::call::name;
use crate::coverage::Seen;

/// The lengths of full windows that must have been added to.
const FULL: [usize; 4] = [1, 2, 100, MOST_SAMPLES];

const EVENTS: [&str; 10] = [
    "no places, refused by 5",
    "room",
    "the last place filled",
    "4,096 in longer columns",
    "full, refused by 1",
    "full, refused by 4",
    "full, refused by 15",
    "full, sums less sample 0 would be others",
    "full, sums that are not the ledger's",
    "full, a number that is not finite goes",
];

/// Calls on a book from which samples went: answered, and refused by 5.
const ANSWERED: [&str; 12] = [
    "add_window",
    "correct",
    "withdraw",
    "add_frame",
    "add_lines",
    "fit",
    "report",
    "split",
    "losses",
    "scores",
    "validate",
    "band",
];
const REFUSED: [&str; 3] = ["add", "add_frame", "add_lines"];

/// The names of all that must happen.
pub fn events() -> Vec<String> {
    let mut keys: Vec<String> = EVENTS.map(|event| format!("window: {event}")).to_vec();
    keys.extend(FULL.map(|length| format!("window: full, of {length}")));
    keys.extend(ANSWERED.map(|call| format!("window: then {call} answered")));
    keys.extend(REFUSED.map(|call| format!("window: then {call} refused by 5")));
    keys
}

/// What happened, by name; whether samples went from the book is kept.
pub fn happened(seen: &Seen, slid: &mut bool) -> Vec<String> {
    let mut keys = Vec::new();
    if *slid {
        let call = name(seen.call);
        match seen.answer {
            Answer::Refused(number) => {
                keys.push(format!("window: then {call} refused by {number}"))
            }
            _ => keys.push(format!("window: then {call} answered")),
        }
    }
    if *seen.call == Call::Open && seen.answer == Answer::Book(0) {
        *slid = false;
    }
    if let Call::AddWindow(sample) = seen.call {
        let mut note_if = |holds: bool, event: &str| {
            if holds {
                keys.push(format!("window: {event}"));
            }
        };
        let capacity = capacity(seen.lengths);
        let full = seen.count == capacity && capacity > 0;
        if let Answer::Refused(number) = seen.answer {
            note_if(capacity == 0 && number == 5, "no places, refused by 5");
            note_if(full, &format!("full, refused by {number}"));
        } else if full {
            *slid = true;
            note_full(seen, *sample, &mut note_if);
        } else {
            note_if(true, "room");
            note_if(seen.count + 1 == capacity, "the last place filled");
        }
    }
    keys
}

fn note_full(seen: &Seen, sample: Sample, note_if: &mut dyn FnMut(bool, &str)) {
    note_if(FULL.contains(&seen.count), &format!("full, of {}", seen.count));
    let shortest = seen.lengths.x.min(seen.lengths.y).min(seen.lengths.weight);
    note_if(seen.count == MOST_SAMPLES && shortest > MOST_SAMPLES, "4,096 in longer columns");
    note_if(!seen.own_sums, "full, sums that are not the ledger's");
    let first = seen.samples[0];
    let finite = [first.x, first.y, first.weight].iter().all(|v| v.is_finite());
    note_if(!finite, "full, a number that is not finite goes");
    if seen.own_sums && finite && seen.count <= 100 {
        let others = less(&seen.samples, sample);
        let differ = |(a, b): (&f64, &f64)| bits(*a) != bits(*b);
        let differ = others.iter().zip(&seen.memory.sums).any(differ);
        note_if(differ, "full, sums less sample 0 would be others");
    }
}

/// The sums less the products of sample 0, and with those of the new one.
fn less(samples: &[Sample], sample: Sample) -> Vec<f64> {
    let mut others = folded_afresh(samples);
    for (place, product) in others.iter_mut().zip(folded_afresh(&samples[..1])) {
        *place -= product;
    }
    sums::add(&mut others[..PLACES], sample);
    others
}
