//! Answers of both calls, and that no input makes them panic.

use escarpim::{groups, order, Refusal};

/// A project without items, of M modules and one entry.
fn head(modules: u8, entry: u8) -> Vec<u8> {
    let mut bytes = vec![1, modules, entry, 0];
    for _ in 0..4 {
        bytes.extend([36, 0, 0, 0, 0, 0, 0, 0]);
    }
    bytes
}

#[test]
fn largest_number_of_modules() {
    let found = groups(&head(64, 5), 0).unwrap();
    assert_eq!(found.groups.len(), 64);
    assert_eq!(found.groups[0], [5]);
    assert_eq!(found.module_visits, 65);
    let none = order(&head(64, 5), 0).unwrap();
    assert_eq!((none.items, none.groups), (vec![], 64));
}

#[test]
fn refusals() {
    let number = |bytes: &[u8]| order(bytes, 0).map_err(|refusal| refusal.number);
    assert_eq!(number(&[]), Err(1));
    assert_eq!(number(&head(65, 0)), Err(5));
    assert_eq!(number(&head(2, 2)), Err(5));
    let spent = groups(&head(3, 0), 3).unwrap_err();
    let expected = Refusal {
        number: 11,
        module_visits: 3,
        item_visits: 0,
    };
    assert_eq!(spent, expected);
    assert!(spent.to_string().starts_with("spent (11): "));
}

/// Every byte of a small project set to every value, and every prefix.
#[test]
fn any_bytes() {
    let mut whole = head(3, 1);
    whole.extend([0, 0, 1, 4, 0, 1, 1, 0, 2, 0, 1, 0, 1, 0]);
    for (at, value) in [
        (8, 4),
        (12, 40),
        (16, 4),
        (20, 44),
        (24, 3),
        (28, 47),
        (32, 3),
    ] {
        whole[at] = value;
    }
    assert!(order(&whole, 0).is_ok());
    for at in 0..whole.len() {
        for value in 0..=255 {
            let mut bytes = whole.clone();
            bytes[at] = value;
            let _ = (order(&bytes, 9), groups(&bytes, 3));
        }
        assert!(order(&whole[..at], 0).is_err());
    }
}
