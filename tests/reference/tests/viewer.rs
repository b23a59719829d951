// The map viewer's calls as worked on paper, and how they go to a driver and back.
// Also whether drivers that are wrong in one way are found out, each by the calls that seeds make.

use reference::book::{decode, encode, Levels};
use reference::fixed::{example_receiver, example_source};
use reference::record::{extent, Record};
use reference::road::Refusal;
use reference::viewer::{
    answers, apply, ask, clear, compare_batch, packed, unpacked, written, Call, Trial, View,
    OUTPUT_SIZE, PLACES,
};
use reference::views::{fixed_views, view};
use std::fs;
use std::path::{Path, PathBuf};
use std::process::Command;
use std::slice::from_ref;

const COMPARE_VIEWER: &str = env!("CARGO_BIN_EXE_compare-viewer");
const REFERENCE_VIEWER: &str = env!("CARGO_BIN_EXE_reference-viewer");
const OTHER: &str = env!("CARGO_BIN_EXE_make-bypass");

const SEEDS: std::ops::RangeInclusive<u64> = 1..=2000;

/// Results without a place.
const SHORT_OR_LONG: u32 = 2 * PLACES;
const VACANT: u32 = 9 * PLACES;

/// The road of the worked case in slot 0, at 25 m, and nearer than 5 m; and the point in slot 5.
const POINT: [u8; 9] = [0x11, 0x40, 0x61, 0xa8, 0x00, 0x61, 0xa8, 0x32, 0x00];
const ROAD: [u8; 30] = [
    0x30, 0x00, 0x0c, 0x83, 0x20, 0x0c, 0x35, 0x00, 0x0f, 0xa0, 0xc8, 0xa0, 0x20, 0x00, 0x00, 0x00,
    0x00, 0x03, 0xd0, 0x90, 0x00, 0x00, 0xf4, 0x24, 0x00, 0x00, 0x06, 0x1a, 0x80, 0x00,
];
const NEAR_ROAD: [u8; 30] = [
    0x30, 0x00, 0x0c, 0x40, 0x28, 0x0c, 0x35, 0x00, 0x0f, 0xa0, 0xc8, 0xa0, 0x20, 0x00, 0x00, 0x00,
    0x00, 0x03, 0xd0, 0x90, 0x00, 0x00, 0xf4, 0x24, 0x00, 0x00, 0x06, 0x1a, 0x80, 0x00,
];

fn result(outcome: Result<(), Refusal>) -> u32 {
    outcome.map_or_else(packed, |()| 0)
}

/// A store in which these records were done.
fn store_of(records: &[&[u8]]) -> Vec<u8> {
    let mut store = vec![0x5a; 23_552];
    assert_eq!(result(clear(&mut store)), 0);
    for record in records {
        assert_eq!(result(apply(&mut store, record)), 0);
    }
    store
}

/// The result of applying, and whether the store is as it was.
fn applied(store: &[u8], record: &[u8]) -> (u32, bool) {
    let mut after = store.to_vec();
    let result = result(apply(&mut after, record));
    (result, after == store)
}

/// The result of asking, and the output, which had all these bytes.
fn asked(store: &[u8], slot: u64, length: usize) -> (u32, Vec<u8>) {
    let mut output = vec![0x77; length];
    let result = result(ask(store, slot, &mut output));
    (result, output)
}

#[test]
fn a_result_is_a_number_times_1024_plus_a_place() {
    let refusal = |number, place| Refusal { number, place };
    assert_eq!(packed(refusal(10, 5)), 10_245);
    assert_eq!(packed(refusal(14, 511)), 14_847);
    assert_eq!(packed(refusal(2, 0)), 2048);
    assert_eq!(unpacked(10_245), (10, 5));
}

#[test]
fn an_output_has_two_low_bytes_first_and_quiet_is_65535() {
    let levels = |den, night| written(Levels { den, night });
    assert_eq!(levels(Some(612), Some(503)), [0x64, 0x02, 0xf7, 0x01]);
    assert_eq!(levels(Some(52), None), [0x34, 0x00, 0xff, 0xff]);
    assert_eq!(levels(None, None), [0xff; 4]);
}

#[test]
fn the_case_at_25_m_from_clearing_to_asking() {
    let mut store = vec![0x5a; 23_552];
    assert_eq!(result(clear(&mut store)), 0);
    assert!(store.iter().all(|&byte| byte == 0));
    assert_eq!(result(apply(&mut store, &POINT)), 0);
    assert_eq!(asked(&store, 5, 4), (0, vec![0xff; 4]));
    assert_eq!(result(apply(&mut store, &ROAD)), 0);
    // 616 and 503 tenths
    assert_eq!(asked(&store, 5, 4), (0, vec![0x68, 0x02, 0xf7, 0x01]));
    assert_eq!(applied(&store, &NEAR_ROAD), (10_245, true));
}

#[test]
fn a_night_without_traffic_is_quiet_alone() {
    let mut source = example_source();
    source.traffic[2].vehicles = 0;
    let store = store_of(&[&POINT, &Record::PlaceSource(0, source).bytes()]);
    // (3E(6028) + E(6528))/6 is 10^6 times 1095449, at most E(6039): 604 tenths
    assert_eq!(asked(&store, 5, 4), (0, vec![0x5c, 0x02, 0xff, 0xff]));
}

#[test]
fn clearing_refuses_another_length_and_leaves_it() {
    for length in [0, 1, 23_551, 23_553, 65_536 + 23_552] {
        let mut store = vec![0x5a; length];
        assert_eq!(result(clear(&mut store)), 1024);
        assert!(store.iter().all(|&byte| byte == 0x5a));
    }
}

#[test]
fn bytes_that_follow_leave_the_store_and_are_told_last() {
    let store = store_of(&[&POINT]);
    let near = [&NEAR_ROAD[..], &[0]].concat();
    let road = [&ROAD[..], &[0]].concat();
    let low_point = [0x10, 0, 0, 0, 0, 0, 0, 0, 0, 0];
    assert_eq!(applied(&store, &ROAD), (0, false));
    assert_eq!(applied(&store, &road), (2048, true));
    assert_eq!(applied(&store, &ROAD.repeat(2)), (2048, true));
    assert_eq!(applied(&store, &near), (10_245, true));
    // no kind 0, a bit left over, a point whose height is 0, nothing in slot 6
    assert_eq!(applied(&store, &[0x00, 0x00]), (3 * 1024, true));
    assert_eq!(applied(&store, &[0x21, 0x41, 0x00]), (4 * 1024, true));
    assert_eq!(applied(&store, &low_point), (5 * 1024 + 4, true));
    assert_eq!(applied(&store, &[0x21, 0x80, 0x00]), (9 * 1024, true));
    assert_eq!(applied(&store[1..], &road), (1024, true));
}

#[test]
fn a_record_that_is_cut_short_is_told_by_the_same_number() {
    let store = store_of(&[&POINT]);
    for length in 0..ROAD.len() {
        assert_eq!(applied(&store, &ROAD[..length]), (2048, true));
    }
}

#[test]
fn sums_that_do_not_go_with_the_roads_are_told_before_bytes_that_follow() {
    let mut book = decode(&store_of(&[&POINT, &ROAD])).unwrap();
    book.accounts[5].as_mut().unwrap().sums = [0; 3];
    let store = encode(&book);
    assert_eq!(applied(&store, &[0x40, 0x00]), (1024, true));
    assert_eq!(applied(&store, &[0x40, 0x00, 0x00]), (1024, true));
}

#[test]
fn a_record_that_asks_only_gives_its_number() {
    let store = store_of(&[&POINT, &ROAD]);
    assert_eq!(applied(&store, &[0x51, 0x40]), (0, true));
    assert_eq!(applied(&store, &[0x51, 0x80]), (9 * 1024, true));
    assert_eq!(applied(&store, &[0x51, 0x40, 0x00]), (2048, true));
    assert_eq!(applied(&store, &[0x51, 0x80, 0x00]), (9 * 1024, true));
}

#[test]
fn an_output_of_another_length_is_told_last() {
    let store = store_of(&[&POINT, &ROAD]);
    let beyond = [64, 65_535, 65_536 + 5, (1 << 32) + 5, u64::MAX];
    for length in [0, 1, 2, 3, 5, 6, 260] {
        let left = vec![0x77; length];
        assert_eq!(asked(&store, 5, length), (2048, left.clone()));
        assert_eq!(asked(&store, 6, length), (9 * 1024, left.clone()));
        for slot in beyond {
            assert_eq!(asked(&store, slot, length), (5 * 1024 + 1, left.clone()));
        }
        assert_eq!(asked(&store[1..], 5, length), (1024, left));
    }
}

#[test]
fn a_refused_ask_leaves_the_output() {
    let store = store_of(&[&POINT, &ROAD]);
    let left = || vec![0x77; 4];
    assert_eq!(asked(&store, 6, 4), (9 * 1024, left()));
    assert_eq!(asked(&store, 64, 4), (5 * 1024 + 1, left()));
    assert_eq!(asked(&store, (1 << 32) + 5, 4), (5 * 1024 + 1, left()));
    assert_eq!(asked(&store[1..], 64, 4), (1024, left()));
    assert_eq!(asked(&[], 5, 4), (1024, left()));
}

#[test]
fn the_point_and_the_road_are_those_of_the_worked_case() {
    assert_eq!(Record::PlaceReceiver(5, example_receiver()).bytes(), POINT);
    assert_eq!(Record::PlaceSource(0, example_source()).bytes(), ROAD);
}

#[test]
fn a_call_comes_out_of_its_frame() {
    for view in SEEDS.take(200).map(view).chain(fixed_views()) {
        let mut bytes = Vec::new();
        view.put(&mut bytes);
        let mut rest = bytes.as_slice();
        assert_eq!(View::take(&mut rest), Some(view));
        assert!(rest.is_empty());
        let cut = &bytes[..bytes.len() - 1];
        assert_eq!(answers(cut, View::call), (Vec::new(), cut.len()));
    }
}

/// A way of making the calls.
type Maker = fn(&mut View) -> u32;

/// Ways that are wrong, which the seeds have to find out.
const WRONG: [(&str, Maker); 41] = [
    ("number and place swapped", swapped),
    ("places by the thousand", thousands),
    ("no place", no_place),
    ("high byte first", high_byte_first),
    ("L_Night first", night_first),
    ("quiet as 0", quiet_as_0),
    ("followed, and done", followed_is_done),
    ("followed, told and done", told_and_done),
    ("output emptied on a refusal", emptied),
    ("output filled as far as it goes", filled),
    ("only a longer output filled", longer_filled),
    ("output before 1", output_before::<1>),
    ("output before 5", output_before::<5>),
    ("output before 9", output_before::<9>),
    ("followed before 1", followed_before::<1>),
    ("followed before 4", followed_before::<4>),
    ("followed before 5", followed_before::<5>),
    ("followed before 6", followed_before::<6>),
    ("followed before 9", followed_before::<9>),
    ("followed before 10", followed_before::<10>),
    ("followed before 11", followed_before::<11>),
    ("followed before 12", followed_before::<12>),
    ("followed before 13", followed_before::<13>),
    ("followed before 14", followed_before::<14>),
    ("followed before the late 1", followed_before_late),
    ("slot of 6 bits", slot_of::<6>),
    ("slot of 8 bits", slot_of::<8>),
    ("slot of 16 bits", slot_of::<16>),
    ("slot of 32 bits", slot_of::<32>),
    ("slot of 63 bits", slot_of::<63>),
    ("slot 64 is vacant", slot_64_is_vacant),
    ("vacant before beyond", all_vacant),
    ("record's length of 16 bits", record_of_16),
    ("store's length of 16 bits", store_of_16),
    ("output's length of 8 bits", output_of::<8>),
    ("output's length of 16 bits", output_of::<16>),
    ("an ask by record tells 2", ask_by_record_refused),
    ("an ask by record of a vacant slot", vacant_by_record),
    ("clear of any length", clear_of_any_length),
    ("clear of a sound store only", clear_of_sound),
    ("clear leaves the last byte", clear_but_one),
];

fn swapped(view: &mut View) -> u32 {
    let (number, place) = unpacked(view.call());
    place * PLACES + number
}

fn thousands(view: &mut View) -> u32 {
    let (number, place) = unpacked(view.call());
    number * 1000 + place
}

fn no_place(view: &mut View) -> u32 {
    unpacked(view.call()).0 * PLACES
}

/// Makes the call and then does this to what an ask wrote.
fn rewritten(view: &mut View, rewrite: impl Fn(&mut [u8])) -> u32 {
    let result = view.call();
    match &mut view.call {
        Call::Ask { output, .. } if result == 0 => rewrite(output),
        _ => {}
    }
    result
}

fn high_byte_first(view: &mut View) -> u32 {
    rewritten(view, |output| {
        output.chunks_exact_mut(2).for_each(|index| index.reverse());
    })
}

fn night_first(view: &mut View) -> u32 {
    rewritten(view, |output| output.rotate_left(2))
}

fn quiet_as_0(view: &mut View) -> u32 {
    rewritten(view, |output| {
        let quiet = |index: &&mut [u8]| **index == [0xff; 2];
        let indices = output.chunks_exact_mut(2).filter(quiet);
        indices.for_each(|index| index.fill(0));
    })
}

/// Whether it is a record with bytes that follow it.
fn is_followed(view: &View) -> bool {
    match &view.call {
        Call::Apply { record } => (1..record.len()).contains(&extent(record)),
        _ => false,
    }
}

fn followed_is_done(view: &mut View) -> u32 {
    if is_followed(view) {
        if let Call::Apply { record } = &mut view.call {
            record.truncate(extent(record));
        }
    }
    view.call()
}

fn told_and_done(view: &mut View) -> u32 {
    let result = view.call();
    if result == SHORT_OR_LONG {
        followed_is_done(view);
    }
    result
}

fn emptied(view: &mut View) -> u32 {
    let result = view.call();
    match &mut view.call {
        Call::Ask { output, .. } if result != 0 => output.fill(0),
        _ => {}
    }
    result
}

/// Makes the call, and of an ask then writes as much as there is room for, whatever the result is, into
/// an output of a length that fits.
fn refitted(view: &mut View, fits: impl Fn(usize) -> bool) -> u32 {
    let result = view.call();
    if let Call::Ask { slot, output } = &mut view.call {
        let mut other = [0; OUTPUT_SIZE];
        if fits(output.len()) && ask(&view.store, *slot, &mut other).is_ok() {
            let seen = output.iter_mut().zip(other);
            seen.for_each(|(byte, other)| *byte = other);
        }
    }
    result
}

fn filled(view: &mut View) -> u32 {
    refitted(view, |_| true)
}

fn longer_filled(view: &mut View) -> u32 {
    refitted(view, |length| length >= OUTPUT_SIZE)
}

/// Tells of an output of another length before a refusal of this number.
fn output_before<const NUMBER: u32>(view: &mut View) -> u32 {
    let result = view.call();
    match &view.call {
        Call::Ask { output, .. } if output.len() != OUTPUT_SIZE && unpacked(result).0 == NUMBER => {
            SHORT_OR_LONG
        }
        _ => result,
    }
}

/// Tells of bytes that follow before a refusal of this number.
fn followed_before<const NUMBER: u32>(view: &mut View) -> u32 {
    let result = view.call();
    match unpacked(result).0 == NUMBER && is_followed(view) {
        true => SHORT_OR_LONG,
        false => result,
    }
}

fn followed_before_late(view: &mut View) -> u32 {
    match decode(&view.store) {
        Some(_) => followed_before::<1>(view),
        None => view.call(),
    }
}

/// Takes so many bits of the slot.
fn slot_of<const BITS: u32>(view: &mut View) -> u32 {
    if let Call::Ask { slot, .. } = &mut view.call {
        *slot &= (1 << BITS) - 1;
    }
    view.call()
}

fn slot_64_is_vacant(view: &mut View) -> u32 {
    let result = view.call();
    match &view.call {
        Call::Ask { slot: 64, .. } if unpacked(result).0 == 5 => VACANT,
        _ => result,
    }
}

fn all_vacant(view: &mut View) -> u32 {
    let result = view.call();
    match &view.call {
        Call::Ask { .. } if unpacked(result).0 == 5 => VACANT,
        _ => result,
    }
}

fn record_of_16(view: &mut View) -> u32 {
    if let Call::Apply { record } = &mut view.call {
        record.truncate(record.len() & 0xffff);
    }
    view.call()
}

fn store_of_16(view: &mut View) -> u32 {
    let rest = view.store.split_off(view.store.len() & 0xffff);
    let result = view.call();
    view.store.extend(rest);
    result
}

/// Takes so many bits of the output's length.
fn output_of<const BITS: u32>(view: &mut View) -> u32 {
    let mut rest = Vec::new();
    if let Call::Ask { output, .. } = &mut view.call {
        rest = output.split_off(output.len() & ((1 << BITS) - 1));
    }
    let result = view.call();
    if let Call::Ask { output, .. } = &mut view.call {
        output.extend(rest);
    }
    result
}

/// Whether it is a record that asks.
fn asks_by_record(view: &View) -> bool {
    matches!(&view.call, Call::Apply { record } if record.first().is_some_and(|b| b >> 4 == 5))
}

fn ask_by_record_refused(view: &mut View) -> u32 {
    match view.call() {
        0 if asks_by_record(view) => SHORT_OR_LONG,
        result => result,
    }
}

fn vacant_by_record(view: &mut View) -> u32 {
    match view.call() {
        VACANT if asks_by_record(view) => 0,
        result => result,
    }
}

fn clear_of_any_length(view: &mut View) -> u32 {
    if view.call == Call::Clear {
        view.store.fill(0);
        return 0;
    }
    view.call()
}

fn clear_of_sound(view: &mut View) -> u32 {
    if view.call == Call::Clear && decode(&view.store).is_none() {
        return PLACES;
    }
    view.call()
}

fn clear_but_one(view: &mut View) -> u32 {
    let last = view.store.last().copied();
    let result = view.call();
    if let (Call::Clear, Some(byte), Some(last)) = (&view.call, view.store.last_mut(), last) {
        *byte = last;
    }
    result
}

/// Whether the comparison finds out this way of making a call.
fn found(trial: &Trial, make: Maker) -> bool {
    let driver = |input: &[u8]| Ok(answers(input, make).0);
    compare_batch(from_ref(trial), &driver).is_err()
}

#[test]
fn every_wrong_driver_is_found_out() {
    let mut counts = [0; WRONG.len()];
    for seed in SEEDS {
        let trial = Trial::new(format!("seed-{seed}"), view(seed));
        assert!(!found(&trial, View::call));
        for (count, (_, make)) in counts.iter_mut().zip(WRONG) {
            *count += u64::from(found(&trial, make));
        }
    }
    for (count, (name, _)) in counts.into_iter().zip(WRONG) {
        assert!(count >= 3, "{name}: {count}");
    }
}

/// Whether all agree, and what is said of a difference.
fn compared(program: &str) -> (bool, String) {
    let mut command = Command::new(COMPARE_VIEWER);
    let run = command.args([program, "300"]).output().unwrap();
    let said = String::from_utf8(run.stderr).unwrap();
    (run.status.success(), said)
}

#[test]
fn what_agrees_is_passed() {
    assert_eq!(compared(REFERENCE_VIEWER), (true, String::new()));
}

#[test]
fn a_difference_is_kept_beside_the_comparing_program() {
    let (same, said) = compared(OTHER);
    assert!(!same && said.contains("fixed-0"), "{said}");
    let (_, path) = said.trim_end().rsplit_once("it is kept as ").unwrap();
    let kept = PathBuf::from(path);
    let folder = Path::new(COMPARE_VIEWER).with_file_name("differences");
    assert_eq!(kept.parent(), Some(folder.as_path()));
    let mut frame = Vec::new();
    fixed_views()[0].put(&mut frame);
    assert_eq!(fs::read(&kept).unwrap(), frame);
    fs::remove_file(kept).unwrap();
}
