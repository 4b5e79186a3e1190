//! The stored answers of crates/replay through the plain rendering, and the
//! count that the program has to print.

use escarpim_compare::plain;

fn bytes(words: &str) -> Vec<u8> {
    let each = words.split_whitespace();
    each.map(|w| u8::from_str_radix(w, 16).unwrap()).collect()
}

/// Makes the call of a line and compares what it returns and leaves.
fn replay(line: &str) {
    let parts: Vec<&str> = line.split(':').collect();
    let [call, number, reply_due, report_due] = parts[..] else {
        panic!("no four parts: {line}");
    };
    let words: Vec<&str> = call.split_whitespace().collect();
    let value = |at: usize| u32::from_str_radix(words[at], 16).unwrap();
    let entry = match words[0] {
        "groups" => plain::groups_entry,
        "order" => plain::order_entry,
        other => panic!("no entry: {other}"),
    };
    let mut reply = vec![170; value(1) as usize];
    let mut report = vec![170; value(2) as usize];
    let project = bytes(&words[4..].join(" "));
    let found = entry(&project, &mut reply, &mut report, value(3));
    assert_eq!(found, u32::from_str_radix(number.trim(), 16).unwrap());
    for (left, due) in [(reply, bytes(reply_due)), (report, bytes(report_due))] {
        let (front, rest) = left.split_at(due.len());
        assert!(front == due && rest.iter().all(|&b| b == 170), "{line}");
    }
}

#[test]
fn stored_answers() {
    let folder = concat!(env!("CARGO_MANIFEST_DIR"), "/../crates/replay");
    let list = std::fs::read_to_string(format!("{folder}/stdin")).unwrap();
    let printed = std::fs::read_to_string(format!("{folder}/stdout")).unwrap();
    let calls: Vec<&str> = list.lines().filter(|l| !l.starts_with('#')).collect();
    calls.iter().copied().for_each(replay);
    assert_eq!(printed, format!("{} calls, 0 differ\n", calls.len()));
}
