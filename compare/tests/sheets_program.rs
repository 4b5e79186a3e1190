//! The lines of crates/sheets through the plain rendering: its file `stdout` is
//! what the entries of document 01 return and write.

use escarpim_compare::plain;

/// The two bytes that the program prints before a reply or a report, and the two behind it.
const AROUND: usize = 2;

fn numbers(words: &[&str]) -> Vec<u32> {
    words
        .iter()
        .map(|w| u32::from_str_radix(w, 16).unwrap())
        .collect()
}

fn printed(bytes: &[u8]) -> String {
    bytes.iter().map(|b| format!(" {b}")).collect()
}

fn answer(line: &str) -> String {
    if line.starts_with('#') {
        return line.to_string();
    }
    let words: Vec<&str> = line.split(' ').collect();
    let entry = match words[0] {
        "groups" => plain::groups_entry,
        "order" => plain::order_entry,
        _ => return format!("? {line}"),
    };
    let numbers = numbers(&words[1..]);
    let (space, room) = (numbers[0] as usize, numbers[1] as usize);
    let project: Vec<u8> = numbers[3..].iter().map(|&b| b as u8).collect();
    let mut reply = vec![170; space + 2 * AROUND];
    let mut report = vec![170; room + 2 * AROUND];
    let number = entry(
        &project,
        &mut reply[AROUND..AROUND + space],
        &mut report[AROUND..AROUND + room],
        numbers[2],
    );
    format!(" {number} :{} :{}", printed(&reply), printed(&report))
}

#[test]
fn sheets_program() {
    let folder = concat!(env!("CARGO_MANIFEST_DIR"), "/../crates/sheets");
    let lines = std::fs::read_to_string(format!("{folder}/stdin")).unwrap();
    let expected = std::fs::read_to_string(format!("{folder}/stdout")).unwrap();
    let found: Vec<String> = lines.lines().map(answer).collect();
    assert_eq!(found, expected.lines().collect::<Vec<_>>());
}
