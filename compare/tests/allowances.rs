//! Document 02, item 1, over the archive: two calls that differ in the
//! allowance alone, 0 standing for its meaning.
#![cfg(feature = "archive")]

use escarpim_compare::generate::{self, Rng};
use escarpim_compare::plain::{self, Visits, USUAL_ALLOWANCE};
use escarpim_compare::sides::ARCHIVE;

/// A call's number, reply and report.
#[derive(Debug, PartialEq)]
struct Left {
    number: u32,
    reply: Vec<u8>,
    report: [u8; 20],
}

impl Left {
    fn visits(&self, walk: usize) -> u32 {
        let at = 12 + 4 * walk;
        u32::from_le_bytes(self.report[at..at + 4].try_into().unwrap())
    }
}

fn call(groups: bool, bytes: &[u8], space: usize, allowance: u32) -> Left {
    let (mut reply, mut report) = (vec![0xA5; space], [0x5A; 20]);
    let entry = if groups {
        ARCHIVE.groups
    } else {
        ARCHIVE.order
    };
    let number = entry(bytes, &mut reply, &mut report, allowance);
    Left {
        number,
        reply,
        report,
    }
}

/// An allowance, 0 being replaced by its meaning.
fn meaning(allowance: u32) -> u32 {
    Visits::new(allowance).allowance
}

/// An allowance near the visits that the project takes, or anywhere, or 0.
fn allowance(rng: &mut Rng, visits: u32) -> u32 {
    match rng.below(6) {
        0 => 0,
        1 => USUAL_ALLOWANCE,
        2 => visits.saturating_sub(1),
        3 => visits,
        4 => rng.below(visits as usize + 2) as u32,
        _ => rng.next() as u32,
    }
}

#[test]
fn a_larger_allowance_changes_no_key() {
    let mut rng = Rng::new(101);
    // Pairs seen, of order calls and of groups calls: by the number under the
    // smaller allowance, and for 11 by the one under the larger.
    let (mut kept, mut after_spent) = ([[0; 14]; 2], [[0; 14]; 2]);
    let mut with_zero = 0;
    for n in 0..20_000 {
        let bytes = match n % 8 {
            0 => generate::byte_string(&mut rng),
            _ => generate::project(&mut rng).to_bytes(),
        };
        let groups = rng.chance(1, 3);
        let space = match rng.below(8) {
            0 => rng.below(300),
            _ => 64 * 65,
        };
        let numbers = plain::order_call(&bytes, &mut [0; 256], 0);
        let visits = numbers[3] + if groups { 0 } else { numbers[4] };
        let (mut a, mut b) = (allowance(&mut rng, visits), allowance(&mut rng, visits));
        if meaning(b) < meaning(a) {
            std::mem::swap(&mut a, &mut b);
        }
        with_zero += (a == 0 || b == 0) as u32;
        let smaller = call(groups, &bytes, space, a);
        let larger = call(groups, &bytes, space, b);
        if smaller.number == 11 {
            assert!(smaller.visits(0) <= larger.visits(0), "{a} {b} {bytes:?}");
            assert!(smaller.visits(1) <= larger.visits(1), "{a} {b} {bytes:?}");
            after_spent[groups as usize][larger.number as usize] += 1;
        } else {
            assert_eq!(smaller, larger, "{a} {b} {bytes:?}");
            kept[groups as usize][smaller.number as usize] += 1;
        }
    }
    for (kept, after_spent) in kept.iter().zip(&after_spent) {
        for (number, least) in [(0, 2_000), (10, 50), (12, 100)] {
            assert!(kept[number] > least, "{kept:?}");
        }
        for (number, least) in [(0, 1_000), (11, 300), (12, 100)] {
            assert!(after_spent[number] > least, "{after_spent:?}");
        }
    }
    assert!(with_zero > 5_000);
}
