// The inputs that the programs are tried on, held against the files stdin of their crates,
// and what the reference makes of them against the files stdout.

use reference::inputs::{job_input, probe_input};
use reference::listing::list;
use reference::longhand::put_sheets;
use reference::probe::answers;
use std::path::Path;

fn file(name: &str) -> Vec<u8> {
    let crates = Path::new(env!("CARGO_MANIFEST_DIR")).join("../../crates");
    std::fs::read(crates.join(name)).unwrap()
}

#[test]
fn the_job_program_is_tried_on_the_example() {
    assert_eq!(job_input(), file("job/stdin"));
    let mut listing = Vec::new();
    list(&job_input(), &mut listing);
    assert_eq!(listing, file("job/stdout"));
}

#[test]
fn the_probing_program_is_tried_on_these_frames() {
    assert_eq!(probe_input(), file("probe/stdin"));
    assert_eq!(answers(&probe_input()), file("probe/stdout"));
}

#[test]
fn longhand_is_tried_on_two_distances_of_the_figures() {
    let numbers = String::from_utf8(file("longhand/stdin")).unwrap();
    let mut sheets = Vec::new();
    put_sheets(&numbers, &mut sheets).unwrap();
    assert_eq!(sheets, file("longhand/stdout"));
}
