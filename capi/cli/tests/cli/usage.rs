//! Bad usage: exit status 2, a sentence, and no output.
use crate::program::{bytes, file, image_file, program, vault};
use std::ffi::{OsStr, OsString};
use std::fs::File;
use std::os::unix::ffi::OsStrExt;
use std::process::Stdio;

fn bad<W: AsRef<OsStr>>(words: impl IntoIterator<Item = W>, says: &str) {
    let answer = vault(words, &[]);
    assert_eq!(
        (answer.status, &answer.stdout[..]),
        (2, &[][..]),
        "{answer:?}"
    );
    assert!(answer.stderr.contains(says), "{says}: {answer:?}");
}

fn bad_line(words: &str, says: &str) {
    bad(words.split(' '), says);
}

#[test]
fn commands_and_options() {
    bad([""; 0], "a command is needed");
    bad([""], "there is no command");
    bad_line("recovery", "there is no command \"recovery\"");
    bad_line("demo --sed 4", "there is no option --sed");
    bad_line("demo --seed", "--seed needs a value");
    bad_line("demo 4", "one argument too many");
    bad_line("recover 2 1 3 image gaps more", "one argument too many");
    bad_line("explain 2 1 3 image gaps more", "one argument too many");
    bad_line("explain 2 1 3 image --jsn", "there is no option --jsn");
    for command in ["recover", "explain"] {
        let bad_line = |words: &str, says| bad_line(&format!("{command} {words}"), says);
        bad_line(
            "2 1 3 image gaps --and image gaps more",
            "argument too many",
        );
        bad_line("2 1 3 image gaps more --and image", "one argument too many");
        bad_line(
            "2 1 3 image --and image --and image",
            "--and is given twice",
        );
        bad_line(
            "2 1 3 image -- --and image",
            "\"image\" is one argument too many",
        );
    }
    bad_line("decode 2 1 3 image - C --and image", "no option --and");
    bad_line("gaps 2 1 -o", "-o needs a value");
    bad_line("list 2 1 3 --json", "there is no option --json");
    bad_line("list -- 2 1 3 --json", "cannot read \"--json\"");
    bad_line("table 2", "\"2\" is one argument too many");
    bad(["table", ""], "one argument too many");
    bad_line("table --json", "there is no option --json");
    bad_line("table -- --help", "\"--help\" is one argument too many");
}

#[test]
fn missing_arguments() {
    bad_line("image", "K is missing");
    bad_line("image 2", "S is missing");
    bad_line("list 2 1", "C is missing");
    bad_line("list 2 1 3", "IMAGE is missing");
    bad_line("recover 2 1 3", "IMAGE is missing");
    bad_line("explain", "K is missing");
    bad_line("explain 2 1", "C is missing");
    bad_line("explain 2 1 3 --json", "IMAGE is missing");
    bad_line("recover 2 1 3 --and image gaps", "IMAGE is missing");
    bad_line("recover 2 1 3 image --and", "IMAGE after --and is missing");
    bad_line(
        "explain 2 1 3 image - --and --json",
        "IMAGE after --and is missing",
    );
    bad_line("recover --and 2 1 3 image", "K is missing");
    bad_line("decode 2 1 3 image", "GAPS is missing");
    bad_line("decode 2 1 3 image -", "SHELF is missing");
    bad_line("gaps 2 1", "POSITION is missing");
}

#[test]
fn numbers() {
    for word in [
        "-1",
        "+1",
        "4294967296",
        "99999999999999999999999",
        "1.5",
        "0x2",
        "two",
        "1 ",
        "٣",
    ] {
        bad(["image", word, "1"], "K is ");
        bad(["image", "2", word], "S is ");
        bad(["list", "2", "1", word, "image"], "C is ");
        bad(["explain", "2", "1", word, "image"], "C is ");
        bad(["demo", "--seed", word], "--seed is ");
        bad(["decode", "2", "1", "3", "image", "-", word], "shelf");
        bad(["gaps", "2", "1", &format!("C:{word}")], "a position in ");
    }
    bad(["image", "", "1"], "K is empty");
    bad(["list", "2", "1", "3", ""], "IMAGE is empty");
    bad(["recover", "2", "1", "3", "/dev/null", ""], "GAPS is empty");
    bad(["explain", "2", "1", "3", "/dev/null", ""], "GAPS is empty");
    for command in ["recover", "explain"] {
        let bad = |words: [&str; 3], says| {
            let words = [&[command, "2", "1", "3", "/dev/null"], &words[..]].concat();
            bad(words, says);
        };
        bad(["--and", "", "gaps"], "IMAGE after --and is empty");
        bad(["--and", "/dev/null", ""], "GAPS is empty");
    }
    bad(["decode", "2", "1", "3", "image", "", "0"], "GAPS is empty");
    bad(
        ["decode", "2", "1", "3", "image", "-", ""],
        "SHELF is empty",
    );
    bad(["gaps", "2", "1", ""], "POSITION is empty");
    bad(["gaps", "2", "1", "C:0", ""], "is not SHELF:NUMBER");
    bad(["demo", "--seed", ""], "--seed is ");
    let no_text = OsString::from(OsStr::from_bytes(b"\xff\xfe"));
    bad([OsStr::new("image"), &no_text, OsStr::new("1")], "K is ");
    bad([no_text], "there is no command");
}

#[test]
fn positions() {
    bad_line("gaps 2 1 C", "is not SHELF:NUMBER");
    bad_line("gaps 2 1 3", "is not SHELF:NUMBER");
    bad_line("gaps 2 1 D:1", "there is no shelf \"D\"");
    bad_line("gaps 2 1 3:0", "levels are 0 to 1");
    bad_line("gaps 2 1 4294967295:0", "levels are 0 to 1");
    bad_line("gaps 2 1 C:8", "shelf C has positions 0 to 7");
    bad_line("gaps 2 1 0:2", "shelf 0 has positions 0 to 1");
    bad_line("gaps 2 1 C:3-2", "shelf C has positions 0 to 7");
    bad_line("gaps 2 1 C:0-8", "shelf C has positions 0 to 7");
    bad_line("gaps 2 1 C:0-4294967295", "shelf C has positions 0 to 7");
    bad_line("gaps 2 1 C:", "a position in \"C:\"");
    bad_line("gaps 2 1 C:1-", "a position in \"C:1-\"");
    bad_line("gaps 2 1 :1", "there is no shelf \"\"");
    // Nothing is written where one position is bad.
    let kept = file("bad-position", b"kept");
    bad_line(&format!("gaps 2 1 -o {kept} C:0 C:9"), "positions 0 to 7");
    assert_eq!(bytes(kept), b"kept");
}

#[test]
fn files() {
    let image = image_file("files", 2, 1, &[]);
    for file in ["no-such-file", "."] {
        for command in ["recover", "explain"] {
            let words = format!("{command} 2 1 0");
            bad_line(&format!("{words} {file}"), "cannot read ");
            bad_line(&format!("{words} {image} {file}"), "cannot read ");
            bad_line(&format!("{words} {image} {file} --json"), "cannot read ");
            let words = format!("{words} {image} --and");
            bad_line(&format!("{words} {file}"), "cannot read ");
            bad_line(&format!("{words} {image} {file}"), "cannot read ");
        }
        bad_line(&format!("decode 2 1 0 {file} - C"), "cannot read ");
        bad_line(&format!("decode 2 1 0 {image} {file} C"), "cannot read ");
        bad_line(&format!("list 2 1 0 {file}"), "cannot read ");
    }
    bad_line("gaps 2 1 -o . C:0", "cannot write ");
    bad_line("gaps 2 1 -o no-such-folder/gaps C:0", "cannot write ");
}

#[test]
fn text_that_is_no_numbers() {
    let bad = |input: &[u8], says: &str| {
        let answer = vault(["image", "2", "1", "--text"], input);
        assert_eq!(
            (answer.status, &answer.stdout[..]),
            (2, &[][..]),
            "{answer:?}"
        );
        assert!(answer.stderr.contains(says), "{says}: {answer:?}");
    };
    bad(b"0 1\n1 x\n", "a number of write 1, line 2, is \"x\"");
    bad(b"\n \r\n0 -1\n", "a number of write 0, line 3, is \"-1\"");
    bad(b"0 4294967296\n", "a number of write 0, line 1, is ");
    bad(b"0 \xff\n", "a number of write 0, line 1, is ");
    bad(&[b'1'; 1 << 17], "write 0, line 1, is too long");
    bad(&[0; 1 << 17], "write 0, line 1, is too long");
    let long = [b"0 1\n\n", &[b'1'; 1 << 17][..]].concat();
    bad(&long, "write 1, line 3, is too long");
}

/// A standard output that cannot be written to, and one that nobody reads.
#[test]
fn outputs() {
    let image = image_file("outputs", 10, 8, &[]);
    let words = [
        format!("list 10 8 0 {image}"),
        format!("recover 10 8 0 {image}"),
        format!("recover 10 8 0 {image} --json"),
        format!("explain 10 8 0 {image}"),
        format!("explain 10 8 0 {image} --json"),
        format!("explain 10 8 0 {image} --and {image}"),
        format!("decode 10 8 0 {image} - C"),
        "image 10 8".into(),
        "gaps 10 8 C:0-2047".into(),
        "table".into(),
        "demo".into(),
        "--help".into(),
    ];
    for words in words {
        let mut command = program();
        command.args(words.split(' '));
        let full = File::options().write(true).open("/dev/full").unwrap();
        let answer = command.stdout(full).output().unwrap();
        assert_eq!(answer.status.code(), Some(2), "{words}: {answer:?}");
        let mut child = command.stdout(Stdio::piped()).spawn().unwrap();
        drop(child.stdout.take());
        assert_eq!(child.wait().unwrap().code(), Some(0), "{words}");
    }
    // Nor can it say why.
    let full = File::options().write(true).open("/dev/full").unwrap();
    let status = program().args(["image", "0", "0"]).stderr(full).status();
    assert_eq!(status.unwrap().code(), Some(1));
}
