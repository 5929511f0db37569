//! Some thousand calls, and the exchange of files; tests/differential runs more.
use differential::{files, run};

#[test]
fn library_and_reference_agree() {
    let options = run::Options {
        calls: 3000,
        seed: 2,
        small: true,
        only: None,
    };
    let tally = run::run(options).expect("no difference");
    assert!(tally.calls() >= 3000);
    assert_eq!(tally.missing(3), Vec::<String>::new());
}

#[test]
fn each_reads_the_files_of_the_other() {
    files::exchange(2, false).expect("no difference");
}
