//! Whole files and runs in words, as the files in `expected/` have them.

use marked::file;

use crate::library;
use crate::tests::{example, run, same, ENOUGH};
use crate::Kind;

#[test]
fn marks() {
    assert_eq!(crate::kind(&file("e1.spt")), Some(Kind::Table));
    assert_eq!(crate::kind(&file("e1.spl")), Some(Kind::List));
    assert_eq!(crate::kind(&file("e1.spx")), Some(Kind::Trace));
    assert_eq!(crate::kind(b"SP"), None);
    assert_eq!(crate::kind(b"SPY"), None);
}

#[test]
fn the_incident() {
    let [table, list, firm, good, replayed] = [
        "asking.spt",
        "asking.spl",
        "asking-firm.spl",
        "asking-good.spx",
        "asking-replayed.spx",
    ]
    .map(|name| example(&format!("incident/{name}")));
    same(&crate::table(&table), "asking-table.txt");
    same(&crate::list(&firm, Some(&table)), "asking-firm-list.txt");
    same(&crate::trace(&good, Some(&table)), "asking-good-trace.txt");
    let (answer, [values, log]) = run(&table, &list, &replayed, ENOUGH);
    assert_eq!(crate::ending(answer[3]), "comparison failed");
    let (values, log) = (&values[..5 * answer[7] as usize], &log[..5 * answer[6] as usize]);
    same(&crate::values(values), "asking-replayed-values.txt");
    same(&crate::log(log, Some(values)), "asking-replayed-log.txt");
    assert_eq!(crate::log(log, None), "2 messages\nsent on 0: 3\nreceived on 0: 7\n");
    assert_eq!(
        crate::messages(log, values),
        "sent on 0: 3  plain 2 on channel 0\nreceived on 0: 7  {(plain 1, plain 101)}key 0 on channel 0\n"
    );
    assert_eq!(
        crate::stopped(&table, &list, answer[4] as usize),
        "statement 6: compare r6 with r3, that is: compare s6 with s3\n\
         step 5: match s6 s3 (go on only if s6 equals s3)\n"
    );
    assert_eq!(crate::stopped(&table, &list, 8), "");
}

#[test]
fn shared_builds_and_a_list_by_itself() {
    let [table, list] = ["answering.spt", "answering-repeats.spl"].map(|name| example(&format!("incident/{name}")));
    same(&crate::list(&list, Some(&table)), "answering-list.txt");
    same(&crate::list(&list, None), "answering-list-alone.txt");
    let [asked, trace] = ["asking.spt", "answering-good.spx"].map(|name| example(&format!("incident/{name}")));
    assert!(crate::trace(&trace, Some(&asked)).contains("  2  value 2  channel 2  for s2: Channel\n"));
    let fewer = crate::trace(&file("e12.spx"), Some(&asked));
    assert!(
        fewer.contains("\nno starting value for s1: ShKey, s2: Channel\n"),
        "{fewer}"
    );
    assert!(crate::trace(&trace, Some(&file("e12.spt"))).contains("  1  value 1  key 0      for no free symbol\n"));
    // A table that can't be read is as good as none.
    let shown = crate::list(&list, Some(&table[..20]));
    assert!(shown.contains("shown without the table, which can't be read:\nrefused 4 0 0\n  its counts ask for 49"));
    assert!(shown.contains("gives r(F+4)"));
}

#[test]
fn what_could_be_read_of_damaged_files() {
    let mut table = file("e1.spt");
    table[29] = 7;
    same(&crate::table(&table), "damaged-table.txt");
    same(
        &crate::list(&file("e11-3.spl"), Some(&file("e1.spt"))),
        "damaged-list.txt",
    );
    same(&crate::trace(&file("e1.spx")[..29], None), "damaged-trace.txt");
    same(&crate::table(&file("e5.spt")), "untyped-table.txt");
    assert_eq!(
        crate::values(&[0, 0, 1, 0, 0, 9, 0, 0, 0, 0]),
        "1 value\n0  channel 0\nvalue 1 is malformed: 09 00 00 00 00: there is no value code 9\n"
    );
    assert_eq!(
        crate::values(&[0, 0, 1, 0, 0, 1]),
        "1 value\n0  channel 0\n1 byte left over: an entry has 5\n"
    );
    assert_eq!(
        crate::log(&[2, 0, 0, 0, 0], None),
        "1 message\nmalformed: 02 00 00 00 00: there is no direction 2\n"
    );
    assert_eq!(
        crate::messages(&[1, 0, 0, 0, 9], &[0, 0, 1, 0, 0]),
        "received on 0: 9  ? on channel 0\n"
    );
}

#[test]
fn types_as_the_command_prints_them() {
    let of = |table: &[u8]| crate::types(table, &library::types(table).expect("types"));
    assert_eq!(
        of(&file("e1.spt")),
        "0 name free Channel\n1 name free ShKey\n2 variable bound ciphertext(Message)\n3 variable bound Message\n"
    );
    assert_eq!(of(&file("e2.spt")), "");
    assert_eq!(
        of(&file("e7.spt")),
        "0 variable free pair(Channel, Message)\n1 variable bound Channel\n2 variable bound Message\n\
         3 variable bound Message\n4 variable bound Message\n"
    );
    assert_eq!(
        crate::types(&file("e6.spt"), &[vec![4, 5, 0, 4, 1, 2]]).lines().next(),
        Some("0 name free pair(ciphertext(Message), pair(Name, Channel))")
    );
}

#[test]
fn endings() {
    assert_eq!(crate::ending(0), "finished");
    assert_eq!(crate::ending(7), "fresh name lacks its type");
    assert_eq!(crate::ending(8), "?");
    assert_eq!(crate::ending(u64::MAX), "?");
}

#[test]
fn every_example_is_shown_whole() {
    let folder = std::path::Path::new(env!("CARGO_MANIFEST_DIR")).join("../../examples");
    let folders = std::fs::read_dir(folder)
        .expect("examples")
        .map(|entry| entry.expect("an entry").path());
    let mut shown = 0;
    for folder in folders.filter(|path| path.is_dir()) {
        for entry in std::fs::read_dir(folder).expect("a folder") {
            let bytes = std::fs::read(entry.expect("an entry").path()).expect("a file");
            let words = match crate::kind(&bytes) {
                Some(Kind::Table) => crate::table(&bytes),
                Some(Kind::List) => crate::list(&bytes, None),
                Some(Kind::Trace) => crate::trace(&bytes, None),
                None => continue,
            };
            assert!(!words.contains("refused") && !words.contains('?'), "{words}");
            shown += 1;
        }
    }
    assert!(shown > 50, "{shown}");
}
