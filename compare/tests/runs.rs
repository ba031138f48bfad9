//! Runs of the model as a program: they agree with the model, and wrong
//! answers and wrong images are found.
#![cfg(unix)]

use std::fs::{self, Permissions};
use std::os::unix::fs::PermissionsExt;
use std::path::{Path, PathBuf};

use compare::tariffs::Book;
use compare::trial::{Trial, Verdict};

const COMPARE: &str = env!("CARGO_BIN_EXE_compare");

fn script(dir: &Path, name: &str, text: &str) -> PathBuf {
    let path = dir.join(name);
    fs::write(&path, format!("#!/bin/sh\n{text}\n")).unwrap();
    fs::set_permissions(&path, Permissions::from_mode(0o755)).unwrap();
    path
}

/// The verdict and what was told, its counts on the last line.
fn tried(book: Book, runs: u64, program: PathBuf) -> (Verdict, String) {
    let trial = Trial {
        book,
        runs,
        seed: 1,
        dir: program.with_extension("dir"),
        program,
    };
    let mut told = Vec::new();
    let verdict = trial.hold(&mut told).unwrap();
    assert!(!trial.dir.exists());
    (verdict, String::from_utf8(told).unwrap())
}

// One test, since a script cannot be started while another thread writes it.
#[test]
fn programs_right_and_wrong() {
    let dir = Path::new(env!("CARGO_TARGET_TMPDIR"));
    let oregon = format!("'{COMPARE}' serve --book oregon");
    let coop = format!("'{COMPARE}' serve --book coop --image \"$1\"");

    let right = [
        (Book::Oregon, script(dir, "oregon", &oregon)),
        (Book::Cooperative, script(dir, "coop", &coop)),
    ];
    for (book, program) in right {
        let (verdict, told) = tried(book, 30, program);
        assert_eq!(verdict, Verdict::AllPassed, "{told}");
        assert!(told.ends_with("\n30 passed, 0 failed\n"), "{told}");
    }

    let wrong = [
        // Another place for number 15, which fills a store.
        (
            Book::Oregon,
            "answer",
            format!("{oregon} | sed -u s/^7F040F06000365/7F040F06000464/"),
            "  expected 7F040F06000365\n  got      7F040F06000464\n",
        ),
        (
            Book::Oregon,
            "further",
            format!("{oregon}; echo 900070"),
            "output past the last answer: 900070\\n\n",
        ),
        (
            Book::Oregon,
            "status",
            format!("{oregon}; exit 3"),
            "exit status: 3\n",
        ),
        (
            Book::Oregon,
            "silent",
            "cat >/dev/null; echo no >&2".to_string(),
            "  got      no answer\n  standard error: no\n",
        ),
        (
            Book::Cooperative,
            "image",
            format!("{coop}; printf X | dd of=\"$1\" conv=notrunc bs=1 seek=423 2>/dev/null"),
            "slot 0 is neither empty nor a record that is held\n",
        ),
        (
            Book::Cooperative,
            "length",
            format!("{coop}; printf X >>\"$1\""),
            "the image has 27137 bytes, not 27136\n",
        ),
    ];
    for (book, name, text, expected) in wrong {
        let (verdict, told) = tried(book, 7, script(dir, name, &text));
        assert_eq!(verdict, Verdict::SomeFailed, "{name}");
        assert!(told.contains(expected), "{name}: {told}");
    }
}
