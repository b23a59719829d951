// What a comparing program says and keeps of a program that differs, and of one that agrees.
// The one that differs is another program of the reference, which heeds no input.

use std::fs;
use std::path::{Path, PathBuf};
use std::process::Command;

const COMPARE_JOBS: &str = env!("CARGO_BIN_EXE_compare-jobs");
const COMPARE_STORES: &str = env!("CARGO_BIN_EXE_compare-stores");
const COMPARE_RECORDS: &str = env!("CARGO_BIN_EXE_compare-records");
const COMPARE_ROOTS: &str = env!("CARGO_BIN_EXE_compare-roots");
const REFERENCE_JOB: &str = env!("CARGO_BIN_EXE_reference-job");
const REFERENCE_PROBE: &str = env!("CARGO_BIN_EXE_reference-probe");
const REFERENCE_LONGHAND: &str = env!("CARGO_BIN_EXE_reference-longhand");
const OTHER: &str = env!("CARGO_BIN_EXE_make-bypass");

/// Whether all agree, and what is said of a difference.
fn compared(compare: &str, program: &str) -> (bool, String) {
    let run = Command::new(compare).args([program, "3"]).output().unwrap();
    let said = String::from_utf8(run.stderr).unwrap();
    (run.status.success(), said)
}

/// Where a difference is kept.
fn kept(said: &str) -> PathBuf {
    let (_, path) = said.trim_end().rsplit_once("it is kept as ").unwrap();
    PathBuf::from(path)
}

#[test]
fn what_agrees_is_passed() {
    for (compare, program) in [
        (COMPARE_JOBS, REFERENCE_JOB),
        (COMPARE_STORES, REFERENCE_PROBE),
        (COMPARE_RECORDS, REFERENCE_PROBE),
        (COMPARE_ROOTS, REFERENCE_LONGHAND),
    ] {
        assert_eq!(compared(compare, program), (true, String::new()));
    }
}

#[test]
fn differences_are_kept_beside_the_comparing_program() {
    for compare in [COMPARE_JOBS, COMPARE_STORES, COMPARE_RECORDS, COMPARE_ROOTS] {
        let (same, said) = compared(compare, OTHER);
        assert!(!same && said.contains("fixed-0"), "{said}");
        let folder = Path::new(compare).with_file_name("differences");
        assert_eq!(kept(&said).parent(), Some(folder.as_path()));
        fs::remove_file(kept(&said)).unwrap();
    }
}

#[test]
fn two_runs_keep_two_files() {
    let [one, two] = [(); 2].map(|()| kept(&compared(COMPARE_JOBS, OTHER).1));
    assert_ne!(one, two);
    for path in [one, two] {
        assert_eq!(fs::read(&path).unwrap(), Vec::new());
        fs::remove_file(path).unwrap();
    }
}
