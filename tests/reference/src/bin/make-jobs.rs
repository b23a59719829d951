// Writes the six jobs of the benchmark into a folder: a town, a town that is edited in two calls and
// in one, one that is asked, one of long roads and one with walls that are edited. Every record in them
// is taken. And two stores with something in every slot, to be asked.

use reference::book::encode;
use reference::chance::Chance;
use reference::course::Course;
use reference::cuts::{span, within};
use reference::fields::{
    HEIGHT, LANES, LENGTH, MINUS, RECEIVERS, SOURCES, SURFACE, WALLS, WALL_HEIGHT,
};
use reference::listing::list;
use reference::record::Record;
use reference::road::{Receiver, Source, Traffic};
use reference::town::{surfaces_at, Draft, WIDE};
use reference::wall::Wall;
use std::path::Path;
use std::process::ExitCode;

const CORNER: i64 = 5_000_000;
const EDITS: usize = 20_000;
const ASKS: usize = 200_000;
const CUT_EDITS: usize = 2_000;
const WALLED_EDITS: usize = 2_000;
const WALL_EVERY: usize = 10;

/// The walls of the last job, and the steps of the line on which walls stand: one to the north for four
/// to the east, so that all are just on it. The last of so many steps from one to the next are left open.
const FEW_WALLS: i64 = 16;
const LINE: i64 = WIDE / 4;
const OPEN: i64 = 187;

fn main() -> ExitCode {
    let Some(folder) = std::env::args().nth(1) else {
        eprintln!("usage: make-jobs FOLDER");
        return ExitCode::FAILURE;
    };
    match write_all(Path::new(&folder)) {
        Ok(()) => ExitCode::SUCCESS,
        Err(error) => {
            eprintln!("{folder}: {error}");
            ExitCode::FAILURE
        }
    }
}

fn write_all(folder: &Path) -> std::io::Result<()> {
    std::fs::write(folder.join("town.job"), town(&mut Chance::new(1)).bytes)?;
    let [in_two_calls, in_one] = edited(&mut Chance::new(2));
    std::fs::write(folder.join("edit.job"), in_two_calls)?;
    std::fs::write(folder.join("set.job"), in_one)?;
    std::fs::write(folder.join("ask.job"), asked(&mut Chance::new(3)))?;
    std::fs::write(folder.join("cut.job"), cut(&mut Chance::new(4)))?;
    std::fs::write(folder.join("walls.job"), walled(&mut Chance::new(5)))?;
    std::fs::write(
        folder.join("uncut.store"),
        full(&mut Chance::new(6), some_road),
    )?;
    std::fs::write(
        folder.join("ends.store"),
        full(&mut Chance::new(7), long_road),
    )
}

fn spot(chance: &mut Chance) -> (i64, i64) {
    let x = CORNER + chance.between(0, WIDE);
    let y = CORNER + chance.between(0, WIDE);
    (x, y)
}

/// Traffic as a federal road of so many vehicles a day has it.
fn traffic(chance: &mut Chance) -> [Traffic; 3] {
    let daily = chance.between(800, 30_000);
    let trucks = chance.between(20, 250);
    [62, 42, 11].map(|thousandths| Traffic {
        vehicles: daily * thousandths,
        trucks,
    })
}

fn road(chance: &mut Chance, x: i64, y: i64) -> Source {
    let (car_speed, truck_speed) =
        chance.pick(&[(30, 30), (50, 50), (70, 60), (100, 80), (130, 80)]);
    let parallel_walls = chance.pick(&[0, 0, 0, 0, 1, 2]);
    Source {
        course: Course::uncut(x, y, chance.between(300, 2000)),
        several_lanes: chance.within(&LANES),
        car_speed,
        truck_speed,
        surface: chance.between(SURFACE.least(), surfaces_at(car_speed)),
        gradient: chance.between(1, 80) + chance.pick(&[0, MINUS]),
        reflection: chance.pick(&[0, 0, 0, 1, 2]),
        parallel_walls,
        parallel_height: if parallel_walls == 0 { 0 } else { 600 },
        parallel_spacing: if parallel_walls == 0 { 0 } else { 2200 },
        traffic: traffic(chance),
    }
}

/// A road anywhere in the town.
fn some_road(chance: &mut Chance) -> Source {
    let (x, y) = spot(chance);
    road(chance, x, y)
}

/// A road of 50 to 1000 m in any direction, both ends of which are in the town.
fn long_road(chance: &mut Chance) -> Source {
    let (x, y) = spot(chance);
    let length = chance.between(LENGTH.most() / 20, LENGTH.most());
    let (dx, dy) = span(chance, length);
    let border = (CORNER, CORNER + WIDE);
    let course = Course::between(x, y, within(x, dx, border), within(y, dy, border));
    Source {
        course,
        ..road(chance, x, y)
    }
}

/// Receivers in every slot.
fn receivers(chance: &mut Chance) -> Draft {
    let mut draft = Draft::default();
    for slot in 0..RECEIVERS as i64 {
        let (x, y) = spot(chance);
        let height = chance.within(&HEIGHT);
        let receiver = Receiver { x, y, height };
        assert!(draft.put_if_taken(Record::PlaceReceiver(slot, receiver)));
    }
    draft
}

/// Places a road that is tried anew until it is taken.
fn place_some(draft: &mut Draft, slot: i64, mut road: impl FnMut() -> Source) {
    while !draft.put_if_taken(Record::PlaceSource(slot, road())) {}
}

/// Receivers and roads in every slot.
fn town(chance: &mut Chance) -> Draft {
    let mut draft = receivers(chance);
    for slot in 0..SOURCES as i64 {
        place_some(&mut draft, slot, || some_road(chance));
    }
    draft
}

fn ask_any(draft: &mut Draft, chance: &mut Chance) {
    let slot = chance.index(RECEIVERS) as i64;
    assert!(draft.put_if_taken(Record::Ask(slot)));
}

/// The town, then over and over a road withdrawn, placed again otherwise, and a question; and the same
/// edits with every road placed where the old one stands, without a withdrawal.
fn edited(chance: &mut Chance) -> [Vec<u8>; 2] {
    let mut draft = town(chance);
    let mut in_one = draft.bytes.clone();
    for _ in 0..EDITS {
        let slot = chance.index(SOURCES);
        let old = draft.book.sources[slot].expect("every slot is in use");
        assert!(draft.put_if_taken(Record::WithdrawSource(slot as i64)));
        let withdrawn = draft.bytes.len();
        let middle = old.course.middle();
        place_some(&mut draft, slot as i64, || {
            road(chance, middle.x, middle.y).uncut(old.course.length())
        });
        ask_any(&mut draft, chance);
        in_one.extend(&draft.bytes[withdrawn..]);
    }
    let tally = list(&in_one, &mut Vec::new());
    assert_eq!(tally.refusals.iter().sum::<u64>(), 0);
    [draft.bytes, in_one]
}

/// The town, then nothing but questions.
fn asked(chance: &mut Chance) -> Vec<u8> {
    let mut draft = town(chance);
    for _ in 0..ASKS {
        ask_any(&mut draft, chance);
    }
    draft.bytes
}

/// Receivers and long roads in every slot, then over and over a road withdrawn, another one placed
/// there, and a question.
fn cut(chance: &mut Chance) -> Vec<u8> {
    let mut draft = receivers(chance);
    for slot in 0..SOURCES as i64 {
        place_some(&mut draft, slot, || long_road(chance));
    }
    for _ in 0..CUT_EDITS {
        let slot = chance.index(SOURCES) as i64;
        assert!(draft.put_if_taken(Record::WithdrawSource(slot)));
        place_some(&mut draft, slot, || long_road(chance));
        ask_any(&mut draft, chance);
    }
    draft.bytes
}

/// A wall of any height in its place on the line, one of so many. No way meets two of them: they are
/// all on one line, and do not touch.
fn wall(chance: &mut Chance, number: i64, count: i64) -> Wall {
    let at = |steps: i64| (CORNER + 4 * steps, CORNER + WIDE * 3 / 8 + steps);
    let step = LINE / count;
    let ((x1, y1), (x2, y2)) = (at(number * step), at((number + 1) * step - OPEN));
    Wall::new(x1, y1, x2, y2, chance.between(300, WALL_HEIGHT.most()))
}

/// So many walls on the line.
fn place_walls(draft: &mut Draft, chance: &mut Chance, count: i64) {
    for slot in 0..count {
        let wall = wall(chance, slot, count);
        assert!(draft.put_if_taken(Record::PlaceWall(slot, wall)));
    }
}

/// The stored state of receivers, walls and such roads in every slot.
fn full(chance: &mut Chance, road: fn(&mut Chance) -> Source) -> Vec<u8> {
    let mut draft = receivers(chance);
    place_walls(&mut draft, chance, WALLS as i64);
    for slot in 0..SOURCES as i64 {
        place_some(&mut draft, slot, || road(chance));
    }
    encode(&draft.book)
}

/// An uncut road in every other slot, a long one in the rest.
fn any_road(chance: &mut Chance, slot: i64) -> Source {
    if slot % 2 == 0 {
        some_road(chance)
    } else {
        long_road(chance)
    }
}

/// Receivers in every slot, roads of both kinds in every slot and a line of walls between them; then
/// over and over a road withdrawn, another one placed there, and a question, and every so often a
/// wall withdrawn and placed again with another height.
fn walled(chance: &mut Chance) -> Vec<u8> {
    let mut draft = receivers(chance);
    place_walls(&mut draft, chance, FEW_WALLS);
    for slot in 0..SOURCES as i64 {
        place_some(&mut draft, slot, || any_road(chance, slot));
    }
    for edit in 0..WALLED_EDITS {
        let slot = chance.index(SOURCES) as i64;
        assert!(draft.put_if_taken(Record::WithdrawSource(slot)));
        place_some(&mut draft, slot, || any_road(chance, slot));
        ask_any(&mut draft, chance);
        if edit % WALL_EVERY == 0 {
            let slot = chance.between(0, FEW_WALLS - 1);
            assert!(draft.put_if_taken(Record::WithdrawWall(slot)));
            let higher = wall(chance, slot, FEW_WALLS);
            assert!(draft.put_if_taken(Record::PlaceWall(slot, higher)));
        }
    }
    draft.bytes
}
