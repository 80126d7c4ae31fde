//! Each wrong use: status 2, nothing on standard output, and one line on standard error.

use crate::tests::Tests;

const WRONG: &[(&str, &str)] = &[
    ("judging", "there is no command 'judging'"),
    ("--quiet", "there is no command '--quiet'"),
    ("compile e1.spt e2.spt", "compile is used so"),
    ("compile missing.spt", "missing.spt: can't be read: No such file"),
    ("compile .", ".: can't be read: Is a directory"),
    ("compile -x e1.spt", "compile has no option '-x'"),
    ("compile --table e1.spt", "compile has no option '--table'"),
    ("compile e1.spt -o", "-o of compile wants a FILE"),
    ("compile e1.spt -o a -o b", "-o is given twice"),
    ("compile e1.spt -q -q", "-q is given twice"),
    ("types e1.spt e1.spt", "types is used so"),
    ("types missing.spt", "missing.spt: can't be read"),
    ("judge", "judge is used so"),
    ("judge e1.spt", "judge is used so"),
    ("judge missing.spt e1.spl", "missing.spt: can't be read"),
    ("judge -o verdicts e1.spt e1.spl", "judge has no option '-o'"),
    ("judge - -", "standard input can be one of the files only"),
    ("run e1.spt e1.spl", "run is used so"),
    ("run e1.spt e1.spl e1.spx values", "run is used so"),
    ("run e1.spt e1.spl e1.spx a b c", "run is used so"),
    ("run e1.spt e1.spl e1.spx - b", "run is used so"),
    ("run missing e1.spl e1.spx", "missing: can't be read"),
    ("run e1.spt missing e1.spx", "missing: can't be read"),
    ("run e1.spt e1.spl missing", "missing: can't be read"),
    ("run - - e1.spx", "standard input can be one of the files only"),
    ("show", "show is used so"),
    ("show e1.spt e1.spl", "show is used so"),
    ("show missing", "missing: can't be read"),
    ("show --table e1.spt", "show is used so"),
    ("show e1.spl --values e1.values", "show is used so"),
    ("show e1.spl --table", "--table of show wants a TABLE"),
    ("show e1.spl --table=missing", "missing: can't be read"),
    ("show --values e1.spt", "no file of a run"),
    ("explain", "explain is used so"),
    ("explain 99", "there is no refusal '99'; refusals are 1 to "),
    ("explain 0", "there is no refusal '0'"),
    ("explain twelve", "there is no refusal 'twelve'"),
    ("explain ending", "after 'ending' a number is wanted"),
    ("explain 12 ending", "after 'ending' a number is wanted"),
    ("explain ending 9", "there is no ending '9'"),
    ("explain refused", "after 'refused' number, file and place"),
    ("explain refused 12 1", "after 'refused' number, file and place"),
    ("explain refused 12 7 0", "there is no file '7'"),
    ("explain refused 12 1 x", "after 'refused' number, file and place"),
    ("install a b", "install is used so"),
    ("help judging", "there is no command 'judging'"),
    ("help judge run", "help is used so"),
    ("build now", "build takes no word"),
    ("demo now", "demo takes no word"),
    ("test short", "test takes no word"),
    ("bench everything", "there is no service 'everything'"),
];

pub fn all(t: &mut Tests) {
    for (line, words) in WRONG {
        let asked: Vec<&str> = line.split(' ').collect();
        let mut command = t.mirvashol(&asked);
        t.troubled(words, &mut command);
    }
    let mut command = t.mirvashol(&["judge", "e1.spt", ""]);
    t.gives(2, b": can't be read: No such file or directory\n", &mut command);
}
