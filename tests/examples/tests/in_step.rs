//! The files in `examples/` are those that are made here, and they answer as their README.md says.

use std::collections::BTreeSet;
use std::path::{Path, PathBuf};

use examples::{all, Protocol};
use second::demand3;
use second::list::COMPARE;
use second::service::{judge, judged};

fn folder(protocol: &Protocol) -> PathBuf {
    Path::new(env!("CARGO_MANIFEST_DIR"))
        .join("../../examples")
        .join(protocol.folder)
}

#[test]
fn the_files_are_the_ones_made_here() {
    for protocol in all() {
        let folder = folder(&protocol);
        let mut made = BTreeSet::from(["README.md".to_string()]);
        for (name, bytes) in protocol.roles.iter().flat_map(|role| role.files()) {
            let file = folder.join(&name);
            assert_eq!(std::fs::read(&file).unwrap_or_default(), bytes, "{}", file.display());
            assert!(made.insert(name));
        }
        let found = std::fs::read_dir(&folder).unwrap();
        let found: BTreeSet<String> = found
            .map(|entry| entry.unwrap().file_name().into_string().unwrap())
            .collect();
        assert_eq!(found, made, "{}", protocol.folder);
    }
}

#[test]
fn each_readme_states_the_steps_and_the_answers() {
    for protocol in all() {
        let words = std::fs::read_to_string(folder(&protocol).join("README.md")).unwrap();
        for role in &protocol.roles {
            let steps = role.process();
            assert!(words.contains(&steps), "{} {}:\n{steps}", protocol.folder, role.name);
        }
        for line in protocol.roles.iter().flat_map(|role| role.lines()) {
            assert!(words.lines().any(|one| one == line), "{}: {line}", protocol.folder);
        }
    }
}

#[test]
fn lists_are_judged_and_nights_end_as_they_should() {
    for protocol in all() {
        for role in &protocol.roles {
            let what = format!("{} {}", protocol.folder, role.name);
            assert_eq!(judge(&role.table, &role.list), [0; 8], "{what}");
            for (called, number, list) in &role.other_lists {
                assert_eq!(judge(&role.table, list)[0], *number, "{what} {called}");
                assert_ne!(*list, role.list, "{what} {called}");
            }
            assert!(
                role.nights
                    .iter()
                    .any(|(called, ending, _)| *called == "good" && *ending == 0),
                "{what}: a good night"
            );
            assert!(
                role.nights.iter().any(|(_, ending, _)| *ending != 0),
                "{what}: a failing one"
            );
            for (called, ending, trace) in &role.nights {
                let (answer, values, log) = role.run(trace);
                assert_eq!((answer[0], answer[3]), (0, *ending), "{what} {called}: {answer:?}");
                let checked = demand3::check(&role.table, &role.list, trace, &answer, &values, &log);
                assert_eq!(checked, Ok(()), "{what} {called}");
            }
        }
    }
}

#[test]
fn the_incident_is_found_at_the_statement_after_the_missing_one() {
    let incident = all().remove(0);
    let asking = &incident.roles[0];
    let (_, list) = judged(&asking.table, &asking.list).unwrap();
    let missing = list.statements.iter().position(|s| s.op == COMPARE).unwrap();
    let (_, _, firm) = &asking.other_lists[0];
    assert_eq!(judge(&asking.table, firm)[..3], [12, 1, missing as u64]);
}
