//! The bench program's report on every vector, on bad input of every kind and on the longest texts, whole and in pieces.

use program::{failed, fed, on_file, reported, root, Ended, Folder, BENCH};
use std::fs;
use std::os::unix::fs::symlink;
use std::path::{Path, PathBuf};
use std::process::Command;

fn refused(rule: u8) -> Ended {
    reported(&format!(
        "kind=none\ncycles=0\nverdict=refused\nrule={rule}\nat=0\nhandshakes=0\nclears=0\n"
    ))
}

/// The texts of `crates/vectors/data`.
fn vectors() -> Vec<PathBuf> {
    let files = fs::read_dir(root().join("crates/vectors/data")).unwrap();
    let texts: Vec<PathBuf> = files
        .map(|file| file.unwrap().path())
        .filter(|path| path.extension().is_some_and(|kind| kind == "in"))
        .collect();
    assert!(texts.len() > 100);
    texts
}

fn report_on(vector: &Path) -> Ended {
    reported(&fs::read_to_string(vector.with_extension("out")).unwrap())
}

#[test]
fn vectors_whole() {
    for vector in vectors() {
        assert_eq!(BENCH.on_file(&vector), report_on(&vector), "{vector:?}");
    }
}

#[test]
fn vectors_in_pieces() {
    for vector in vectors() {
        let text = fs::read(&vector).unwrap();
        let size = text.len() / 50 + 1;
        assert_eq!(
            BENCH.in_pieces(&text, size),
            report_on(&vector),
            "{vector:?} in pieces of {size}"
        );
    }
}

/// The whole case with one thing in it replaced.
fn replaced(from: &str, to: &str) -> Vec<u8> {
    let text = std::str::from_utf8(BENCH.text).unwrap();
    assert!(text.contains(from));
    text.replace(from, to).into_bytes()
}

#[test]
fn bad_input() {
    let program = fs::read(root().join("crates/bench/out/bench")).unwrap();
    let more = |surplus: &str| [BENCH.text, surplus.as_bytes()].concat();
    let bad = [
        ("nothing", Vec::new(), 9),
        ("five million zeros", vec![0; 5_000_000], 9),
        ("a binary", program, 9),
        ("carriage returns", replaced("\n", "\r\n"), 9),
        ("an upper-case digit", replaced("c=f1", "c=F1"), 9),
        ("a surplus byte", more("x"), 9),
        ("a surplus line feed", more("\n"), 9),
        ("a surplus line", more("c=f300000013\n"), 9),
        ("a leading zero", replaced("cycles=5", "cycles=05"), 9),
        ("4,097 announced", replaced("cycles=5", "cycles=4097"), 3),
        (
            "4,097 announced after a bad switch",
            replaced("seq=off\ncycles=5", "seq=0\ncycles=4097"),
            9,
        ),
        (
            "a reserved bit past the breach",
            replaced("c=f300000013", "c=fb00000013"),
            2,
        ),
        (
            "a reserved bit in a clear",
            replaced("c=f300000013", "c=0c00000013"),
            2,
        ),
    ];
    for (name, text, rule) in bad {
        for size in [text.len() / 20 + 1, 1 << 20] {
            assert_eq!(
                BENCH.in_pieces(&text, size),
                refused(rule),
                "{name} in pieces of {size}"
            );
        }
    }
}

#[test]
fn every_beginning() {
    for length in 0..BENCH.text.len() {
        let text = &BENCH.text[..length];
        assert_eq!(BENCH.in_pieces(text, 16), refused(9), "{length} bytes");
    }
}

#[test]
fn whole_case_in_pieces() {
    for size in 1..=BENCH.text.len() {
        assert_eq!(
            BENCH.in_pieces(BENCH.text, size),
            reported(BENCH.report),
            "in pieces of {size}"
        );
    }
}

/// The command is found through a link, from any folder.
#[test]
fn through_a_link() {
    let folder = Folder::new("link");
    let link = folder.0.join("judge");
    symlink(root().join("bench"), &link).unwrap();
    let mut command = Command::new(&link);
    command.current_dir(&folder.0);
    assert_eq!(fed(command, BENCH.text, 16), reported(BENCH.report));
}

/// How many bytes the longest legal text has.
const LONGEST: usize = 53_280;

/// A longest legal text, whose entries these are, with the report on it, and texts that are longer.
fn long_texts(entry: impl Fn(usize) -> String, report: &str) -> Vec<(Vec<u8>, Ended)> {
    let entries: String = (0..4_096).map(entry).collect();
    let text = format!("kind=stream\nseq=off\ncycles=4096\n{entries}").into_bytes();
    assert_eq!(text.len(), LONGEST);
    let more = |surplus: &[u8]| ([&text, surplus].concat(), refused(9));
    vec![
        (text.clone(), reported(report)),
        (text[..LONGEST - 1].to_vec(), refused(9)),
        more(b"\n"),
        more(b"\0"),
        more(b"c=f300000000\n"),
        more(&b"c=f300000000\n".repeat(1_000_000 / 13 + 1)),
        more(&vec![0; 1_000_000]),
    ]
}

/// Every cycle is a handshake.
fn clean() -> Vec<(Vec<u8>, Ended)> {
    long_texts(
        |cycle| format!("c=f3{cycle:08x}\n"),
        "kind=stream\ncycles=4096\nverdict=clean\nrule=0\nat=0\nhandshakes=4096\nclears=0\n",
    )
}

/// The last cycle withdraws the valid of the one before. The first thousand are clear.
fn broken() -> Vec<(Vec<u8>, Ended)> {
    let control = |cycle: usize| match cycle {
        0..1_000 => "f7",
        4_094 => "f1",
        4_095 => "f2",
        _ => "f3",
    };
    long_texts(
        |cycle| format!("c={}{cycle:08x}\n", control(cycle)),
        "kind=stream\ncycles=4096\nverdict=broken\nrule=4\nat=4095\nhandshakes=3094\nclears=1000\n",
    )
}

#[test]
fn long_texts_whole() {
    let folder = Folder::new("long-texts");
    for (text, ended) in [clean(), broken()].concat() {
        let file = folder.file("text", &text);
        assert_eq!(BENCH.on_file(&file), ended, "{} bytes", text.len());
        let size = text.len();
        assert_eq!(BENCH.in_pieces(&text, size), ended, "{size} bytes at once");
    }
}

#[test]
fn long_texts_in_pieces() {
    for (text, ended) in [clean(), broken()].concat() {
        for size in [1, 7, 13, 4_096, LONGEST - 1, LONGEST, LONGEST + 1, 65_536] {
            assert_eq!(
                BENCH.in_pieces(&text, size),
                ended,
                "{} bytes in pieces of {size}",
                text.len()
            );
        }
    }
}

/// Reads are interrupted, come too early and move little, and so do writes.
#[test]
fn long_texts_with_delays() {
    for (text, ended) in [clean(), broken()].concat() {
        let command = BENCH.faulty("-4,1000,-11,3,", "-4,1,-11,");
        assert_eq!(fed(command, &text, 4_096), ended, "{} bytes", text.len());
    }
}

/// The byte after the longest legal text decides any answer, and an error behind it is not met.
#[test]
fn nothing_is_read_beyond() {
    let folder = Folder::new("beyond");
    let longer = folder.file("text", &[0; LONGEST + 2]);
    assert_eq!(on_file(BENCH.faulty("53281,-5,", ""), &longer), refused(9));
    assert_eq!(
        on_file(BENCH.faulty("53280,-5,", ""), &longer),
        failed("", "bench: standard input: Input/output error")
    );
}
