// Stored states that are not damaged but that no history has, with the calls that meet this.
// Also pairs just at the limits, where one step decides between two answers.

use crate::aims::{loud_behind_a_wall, screened_pair, turning_ray, wall_before};
use crate::book::{decode, mean_energy, Account, Book, TOP};
use crate::chance::Chance;
use crate::course::Course;
use crate::cuts::{pair, receiver_beside, span, spanned};
use crate::exchanges::{earlier_receiver, earlier_source};
use crate::faint::{road_of_level, FAINT_LEVELS};
use crate::fields::{
    FARTHEST, HEIGHT, LENGTH, RECEIVERS, RECEIVER_SLOT, SOURCES, SOURCE_SLOT, TRUCKS, VEHICLES,
    WALLS, WALL_SLOT,
};
use crate::fixed::example_receiver;
use crate::level::{energy, level, FAINTEST};
use crate::limits::{
    any_way, loud_road, tuned, tuned_by_day, way_of_square, Way, APART, FAR_STEPS, HALF_NEAREST,
    HALVES, NEAR_STEPS, ROOM,
};
use crate::probe::Frame;
use crate::record::{take, Record};
use crate::road::{
    emission, root, shares, Receiver, Source, Traffic, FARTHEST_SQUARE, LOUDEST, NEAREST_SQUARE,
    SOURCE_HEIGHT,
};
use crate::stores::{fitting_record, frame_of, settled, slot_in};
use crate::town::{placing, road, traffic, Town, WIDE};
use crate::wall::Wall;

/// What a source brings to a receiver past the walls; nothing where the pair is refused.
pub(crate) fn heard_of(source: &Source, receiver: &Receiver, walls: &[Wall]) -> [i64; 3] {
    shares(source, &emission(source), receiver, walls).unwrap_or([0; 3])
}

/// Sums that leave room for a share more and a share less.
pub(crate) fn ample(chance: &mut Chance) -> [i64; 3] {
    [(); 3].map(|()| chance.between(TOP / 4, TOP / 2))
}

/// A sum just enough, or just not, for the share that a withdrawal takes off it.
pub(crate) fn low_sum(chance: &mut Chance) -> Frame {
    let (_, mut book) = settled(chance);
    let leaving = slot_in(chance, &book.sources, true);
    let source = book.sources[leaving].expect("the slot is in use");
    let odds = chance.between(1, 8);
    let walls = book.standing_walls();
    for account in book.accounts.iter_mut().flatten() {
        let shares = heard_of(&source, &account.receiver, &walls);
        let period = chance.index(3);
        if chance.one_in(odds) {
            account.sums[period] = (shares[period] + chance.pick(&[-1, 0, 0, 1])).max(0);
        }
    }
    frame_of(&book, &Record::WithdrawSource(leaving as i64))
}

/// A sum just low enough, or just not, for the share that a new source adds to it;
/// sometimes another receiver stands so near that this is said first.
pub(crate) fn high_sum(chance: &mut Chance) -> Frame {
    let (town, mut book) = settled(chance);
    let slot = slot_in(chance, &book.sources, false);
    let source = match chance.between(0, 2) {
        0 => town.between(chance),
        _ => town.source(chance).uncut(chance.between(1, 200)),
    };
    let record = placing(chance, slot as i64, source);
    let source = record.source().expect("a source is placed");
    let at = slot_in(chance, &book.accounts, true);
    let walls = book.standing_walls();
    if let Some(account) = &mut book.accounts[at] {
        let shares = heard_of(&source, &account.receiver, &walls);
        let period = chance.index(3);
        let excess = chance.between(-1, 1).min(shares[period]);
        account.sums[period] = TOP - shares[period] + excess;
    }
    if chance.one_in(3) {
        let other = slot_in(chance, &book.accounts, false);
        let receiver = receiver_at(chance, &source, 200);
        let sums = ample(chance);
        book.accounts[other] = Some(Account { receiver, sums });
    }
    frame_of(&book, &record)
}

/// A distance at which a source of this length is too near, too far, too long or too loud,
/// or at which it is mostly accepted.
pub(crate) fn distance(chance: &mut Chance, length: i64, accepted: bool) -> i64 {
    let (nearest, farthest) = (root(NEAREST_SQUARE), root(FARTHEST_SQUARE));
    if accepted {
        return chance.between(farthest / 5, farthest * 2 / 3);
    }
    let rise = HEIGHT.most() - SOURCE_HEIGHT;
    match chance.between(0, 3) {
        0 => chance.between(0, root(NEAREST_SQUARE - rise * rise)),
        1 => chance.between(farthest, farthest * 5 / 4),
        2 => chance.between(nearest, 2 * length),
        _ => 2 * length + chance.between(0, 60),
    }
}

/// A step of this length on the map, in any direction.
fn step(chance: &mut Chance, distance: i64) -> (i64, i64) {
    let dx = chance.between(0, distance);
    let dy = root(distance * distance - dx * dx);
    (dx * chance.pick(&[-1, 1]), dy * chance.pick(&[-1, 1]))
}

/// A receiver so far from an uncut source, or beside one between two ends.
pub(crate) fn receiver_at(chance: &mut Chance, source: &Source, distance: i64) -> Receiver {
    let Course::Uncut { middle, .. } = source.course else {
        return receiver_beside(chance, &source.course, distance);
    };
    let (dx, dy) = step(chance, distance);
    Receiver {
        x: (middle.x + dx).clamp(0, FARTHEST),
        y: (middle.y + dy).clamp(0, FARTHEST),
        height: chance.edge_in(&HEIGHT),
    }
}

/// A loud road with room around it and much traffic in one period at least.
pub(crate) fn meeting_road(chance: &mut Chance) -> Source {
    let mut source = loud_road(chance).uncut(chance.between(HALF_NEAREST, 10 * HALF_NEAREST));
    if chance.one_in(3) {
        let length = HALF_NEAREST + chance.magnitude(LENGTH.most() - HALF_NEAREST);
        source.course = spanned(source.course.middle(), span(chance, length));
    }
    let x = chance.between(ROOM, FARTHEST - ROOM);
    let y = chance.between(ROOM, FARTHEST - ROOM);
    let mut source = source.moved(x, y);
    source.traffic = [(); 3].map(|()| traffic(chance));
    source.traffic[chance.index(3)] = Traffic {
        vehicles: chance.between(VEHICLES.most() / 2, VEHICLES.most()),
        trucks: chance.between(TRUCKS.most() / 2, TRUCKS.most()),
    };
    source
}

/// The same source with its ends no farther than where the map ends.
pub(crate) fn on_the_map(source: Source) -> Source {
    let Course::Between { first, second } = source.course else {
        return source;
    };
    let [x1, y1, x2, y2] = [first.x, first.y, second.x, second.y].map(|c| c.clamp(0, FARTHEST));
    let course = Course::between(x1, y1, x2, y2);
    Source { course, ..source }
}

/// A pair that no history has, among others. The sums may be ample, so that they do not tell.
pub(crate) fn bad_pair(chance: &mut Chance) -> Frame {
    let (town, mut book) = settled(chance);
    let slot = slot_in(chance, &book.accounts, true);
    let at = slot_in(chance, &book.sources, true);
    let old = book.sources[at].expect("the slot is in use");
    let middle = old.course.middle();
    let source = on_the_map(meeting_road(chance).moved(middle.x, middle.y));
    book.sources[at] = Some(source);
    let way = distance(chance, source.course.length().max(HALF_NEAREST), false);
    book.accounts[slot] = Some(Account {
        receiver: receiver_at(chance, &source, way),
        sums: ample(chance),
    });
    if !chance.one_in(4) {
        for account in book.accounts.iter_mut().flatten() {
            account.sums = ample(chance);
        }
    }
    let record = match chance.between(0, 3) {
        0 => fitting_record(chance, &town, &book),
        _ => Record::WithdrawSource(at as i64),
    };
    frame_of(&book, &record)
}

/// A pair that no history has, among others, and a call on a wall, which meets it unless another
/// pair is refused before. The walls may be in the way of it.
pub(crate) fn bad_pair_walled(chance: &mut Chance) -> Frame {
    let frame = bad_pair(chance);
    let Some(mut book) = decode(&frame.image) else {
        return frame;
    };
    if chance.one_in(2) {
        clear_most(chance, &mut book);
    }
    let town = Town::of_width(chance, WIDE);
    for _ in 0..chance.between(0, 2) {
        book.walls[chance.index(WALLS)] = Some(some_wall(chance, &book, &town));
    }
    let record = wall_call(chance, &book, &town);
    frame_of(&book, &record)
}

/// Takes most sources out of a book, so that few pairs are left.
fn clear_most(chance: &mut Chance, book: &mut Book) {
    let odds = chance.between(2, 10);
    for source in &mut book.sources {
        if !chance.one_in(odds) {
            *source = None;
        }
    }
}

/// A wall before a source and a receiver that stand, or anywhere in a town.
pub(crate) fn some_wall(chance: &mut Chance, book: &Book, town: &Town) -> Wall {
    let at = slot_in(chance, &book.accounts, true);
    let source = book.sources[slot_in(chance, &book.sources, true)];
    match (book.accounts[at], source) {
        (Some(account), Some(source)) => wall_before(chance, &source.course, &account.receiver),
        _ => town.wall(chance),
    }
}

/// A call on a wall, which is mostly there when it is to go.
pub(crate) fn wall_call(chance: &mut Chance, book: &Book, town: &Town) -> Record {
    let leaves = chance.one_in(2) && book.walls.iter().any(Option::is_some);
    let used = if leaves {
        !chance.one_in(8)
    } else {
        chance.one_in(3)
    };
    let slot = slot_in(chance, &book.walls, used) as i64;
    match leaves {
        true => Record::WithdrawWall(slot),
        false => Record::PlaceWall(slot, some_wall(chance, book, town)),
    }
}

/// Receivers, sources and walls aimed between them, of which any may be barred: by two walls, by
/// their distance or as too loud; sums that are right, or anything; and a call on any of them. What is
/// placed comes into a free slot, or where another one stands.
pub(crate) fn screened(chance: &mut Chance) -> Frame {
    let (receiver, source) = screened_pair(chance);
    let mut book = Book::cleared();
    let sums = ample(chance);
    let (r, s) = (chance.edge_in(&RECEIVER_SLOT), chance.edge_in(&SOURCE_SLOT));
    book.accounts[r as usize] = Some(Account { receiver, sums });
    let place = placing(chance, s, source);
    book.sources[s as usize] = place.source();
    for _ in 0..chance.pick(&[0, 1, 1, 2, 2, 3]) {
        let wall = wall_before(chance, &source.course, &receiver);
        book.walls[chance.edge_in(&WALL_SLOT) as usize] = Some(wall);
    }
    if chance.one_in(3) {
        add_neighbours(chance, &mut book, &receiver, &source);
    }
    let town = Town::of_width(chance, WIDE);
    let used = chance.one_in(2);
    let record = match chance.between(0, 5) {
        0 => {
            let before = Account {
                receiver: earlier_receiver(chance, &receiver),
                sums,
            };
            book.accounts[r as usize] = used.then_some(before);
            Record::PlaceReceiver(r, receiver)
        }
        1 => {
            book.sources[s as usize] = used.then_some(earlier_source(chance, &receiver));
            place
        }
        2 => Record::WithdrawSource(s),
        _ => wall_call(chance, &book, &town),
    };
    frame_of(&book, &record)
}

/// The same with sums just enough, or just not, for what a source brings past the walls.
pub(crate) fn screened_sums(chance: &mut Chance) -> Frame {
    let frame = screened(chance);
    match decode(&frame.image) {
        Some(book) => tight_sums(chance, book, frame),
        None => frame,
    }
}

/// Adds receivers beside one and sources beside another, so that a call meets more than one pair.
pub(crate) fn add_neighbours(
    chance: &mut Chance,
    book: &mut Book,
    receiver: &Receiver,
    source: &Source,
) {
    for _ in 0..chance.between(1, 3) {
        let mut beside = *receiver;
        beside.x = (beside.x + chance.between(-3000, 3000)).clamp(0, FARTHEST);
        book.accounts[chance.index(RECEIVERS)] = Some(Account {
            receiver: beside,
            sums: ample(chance),
        });
        let middle = source.course.middle();
        let (dx, dy) = (chance.between(-3000, 3000), chance.between(-3000, 3000));
        let other = source.moved(middle.x + dx, middle.y + dy);
        book.sources[chance.index(SOURCES)] = Some(on_the_map(other));
    }
}

/// A source and a receiver so far apart that the rule turns by which a ray bends, and a wall that
/// comes between them or stands there while one of them comes.
pub(crate) fn turning(chance: &mut Chance) -> Frame {
    let (receiver, source, wall) = turning_ray(chance);
    let (r, s) = (chance.edge_in(&RECEIVER_SLOT), chance.edge_in(&SOURCE_SLOT));
    let w = chance.edge_in(&WALL_SLOT);
    let mut book = Book::cleared();
    let mut records = vec![
        Record::PlaceReceiver(r, receiver),
        placing(chance, s, source),
        Record::PlaceWall(w, wall),
    ];
    let last = records.remove(chance.index(3));
    for record in records {
        book.apply(&record);
    }
    frame_of(&book, &last)
}

/// A source that is too loud without the wall before it, and the call that takes the wall away, or
/// one that brings it.
pub(crate) fn loud_walled(chance: &mut Chance) -> Frame {
    let (receiver, source, wall) = loud_behind_a_wall(chance);
    let mut book = Book::cleared();
    let (r, s) = (chance.edge_in(&RECEIVER_SLOT), chance.edge_in(&SOURCE_SLOT));
    let w = chance.edge_in(&WALL_SLOT);
    let sums = ample(chance);
    book.accounts[r as usize] = Some(Account { receiver, sums });
    book.sources[s as usize] = Some(source);
    let record = match chance.between(0, 4) {
        0 => {
            book.sources[s as usize] = None;
            Record::PlaceSource(s, source)
        }
        1 => Record::WithdrawSource(s),
        2 => Record::PlaceWall(w, wall),
        _ => Record::WithdrawWall(w),
    };
    if record.kind() != Record::PlaceWall(w, wall).kind() {
        book.walls[w as usize] = Some(wall);
    }
    frame_of(&book, &record)
}

/// A new source that meets a few receivers, of which some may refuse it.
pub(crate) fn met_by_source(chance: &mut Chance) -> Frame {
    let source = meeting_road(chance);
    let slot = chance.index(SOURCES) as i64;
    let record = placing(chance, slot, source);
    let mut book = Book::cleared();
    for _ in 0..chance.between(1, 6) {
        let accepted = chance.one_in(2);
        let way = distance(chance, source.course.length(), accepted);
        let sums = if chance.one_in(5) {
            [TOP; 3]
        } else {
            ample(chance)
        };
        book.accounts[chance.index(RECEIVERS)] = Some(Account {
            receiver: receiver_at(chance, &source, way),
            sums,
        });
    }
    frame_of(&book, &record)
}

/// A new receiver that meets a few sources, of which some may refuse it.
pub(crate) fn met_by_receiver(chance: &mut Chance) -> Frame {
    let here = meeting_road(chance);
    let receiver = receiver_at(chance, &here, 100);
    let odds = chance.between(2, 40);
    let mut book = Book::cleared();
    for _ in 0..chance.between(1, 30) {
        let source = meeting_road(chance);
        let accepted = !chance.one_in(odds);
        let way = distance(chance, source.course.length(), accepted);
        let (dx, dy) = step(chance, way);
        let source = source.moved(receiver.x + dx, receiver.y + dy);
        book.sources[chance.index(SOURCES)] = Some(source);
    }
    let slot = slot_in(chance, &book.accounts, false);
    frame_of(&book, &Record::PlaceReceiver(slot as i64, receiver))
}

/// One pair in an otherwise empty book, the second party still to be placed, sometimes where another
/// one stands; or the source to be withdrawn, or another one placed there, although the pair may be
/// none that is accepted.
fn lone_pair(chance: &mut Chance, receiver: Receiver, place: Record) -> Frame {
    let mut book = Book::cleared();
    let (r, s) = (chance.edge_in(&RECEIVER_SLOT), chance.edge_in(&SOURCE_SLOT));
    let sums = ample(chance);
    let used = chance.one_in(2);
    let earlier = earlier_source(chance, &receiver);
    book.accounts[r as usize] = Some(Account { receiver, sums });
    book.sources[s as usize] = place.source();
    let record = match chance.between(0, 5) {
        0 | 1 => {
            let before = Account {
                receiver: earlier_receiver(chance, &receiver),
                sums,
            };
            book.accounts[r as usize] = used.then_some(before);
            Record::PlaceReceiver(r, receiver)
        }
        2 | 3 => {
            book.sources[s as usize] = used.then_some(earlier);
            place.with(&SOURCE_SLOT, s)
        }
        4 => Record::WithdrawSource(s),
        _ => placing(chance, s, earlier),
    };
    frame_of(&book, &record)
}

/// A squared distance just at a limit or as near to it as there is, and a length for it.
fn tight_numbers(chance: &mut Chance) -> (i64, i64) {
    let length = chance.between(1, 200);
    match chance.between(0, 2) {
        0 => (NEAREST_SQUARE + chance.pick(&NEAR_STEPS), length),
        1 => (FARTHEST_SQUARE + chance.pick(&FAR_STEPS), length),
        _ => {
            let half = chance.pick(&HALVES);
            (4 * half * half + chance.between(-1, 1), half)
        }
    }
}

/// A road between two ends and its receiver, of any kind that there is.
pub(crate) fn cut_pair(chance: &mut Chance) -> Frame {
    let (receiver, source) = pair(chance);
    let frame = lone_pair(chance, receiver, Record::PlaceSource(0, source));
    sometimes_tight(chance, frame)
}

/// The same probe or, every other time, with sums that are just enough for it, or just not.
fn sometimes_tight(chance: &mut Chance, frame: Frame) -> Frame {
    match decode(&frame.image) {
        Some(book) if chance.one_in(2) => tight_sums(chance, book, frame),
        _ => frame,
    }
}

/// The same probe with the sums of every receiver just enough, or just not, for what its record
/// adds to them or takes off.
fn tight_sums(chance: &mut Chance, mut book: Book, frame: Frame) -> Frame {
    let Ok((record, _)) = take(&frame.record) else {
        return frame;
    };
    let comes = record.source();
    let goes = match record {
        Record::WithdrawSource(slot)
        | Record::PlaceSource(slot, _)
        | Record::PlaceDaily(slot, _) => book.sources[slot as usize],
        _ => None,
    };
    let walls = book.standing_walls();
    for account in book.accounts.iter_mut().flatten() {
        let heard = |source: Source| heard_of(&source, &account.receiver, &walls);
        let [off, on] = [goes, comes].map(|source| source.map_or([0; 3], heard));
        let period = chance.index(3);
        let step = chance.pick(&[-1, -1, 0, 1]);
        let most = goes.is_none() || (comes.is_some() && chance.one_in(2));
        let sum = if most { TOP - on[period] - step } else { step };
        account.sums[period] = (sum + off[period]).clamp(0, TOP);
    }
    frame_of(&book, &record)
}

/// A pair whose squared distance is just at a limit or one step beside it.
pub(crate) fn tight_square(chance: &mut Chance) -> Frame {
    let (square, length) = tight_numbers(chance);
    let fallback = Way {
        dx: root(NEAREST_SQUARE),
        dy: 0,
        height: example_receiver().height,
    };
    let way = way_of_square(chance, square).unwrap_or(fallback);
    let receiver = way.receiver(chance);
    let source = way.place(road(chance).uncut(length), &receiver);
    let place = placing(chance, 0, source);
    lone_pair(chance, receiver, place)
}

/// A pair of which one period's share level is just the loudest, or just above it.
pub(crate) fn tight_level(chance: &mut Chance) -> Frame {
    let road = loud_road(chance);
    tuned_pair(chance, road, 600, [LOUDEST - 500, LOUDEST + 1])
}

/// A pair of which the share levels are around zero or below it, just where their energy turns, with
/// sums that are sometimes just enough for it, or just not.
pub(crate) fn faint_level(chance: &mut Chance) -> Frame {
    let frame = if chance.one_in(3) {
        let road = road(chance).uncut(chance.magnitude(180));
        let levels = [(); 2].map(|()| chance.pick(&FAINT_LEVELS));
        tuned_pair(chance, road, WIDE, levels)
    } else {
        exact_pair(chance)
    };
    sometimes_tight(chance, frame)
}

/// A pair of which every period's share level is just the same faint one, if such is found.
fn exact_pair(chance: &mut Chance) -> Frame {
    let receiver = any_way(chance, WIDE).receiver(chance);
    let level = chance.pick(&FAINT_LEVELS);
    let source = road_of_level(chance, &receiver, level);
    let source = source.unwrap_or_else(|| road(chance).moved(receiver.x + APART, receiver.y));
    lone_pair(chance, receiver, Record::PlaceSource(0, source))
}

/// A pair tuned to the first level in two periods and to the second in the other one, each
/// sometimes with a step of traffic less; or to the second in one period by a daily figure.
fn tuned_pair(chance: &mut Chance, road: Source, farthest: i64, levels: [i64; 2]) -> Frame {
    let way = Way {
        dx: chance.between(APART, farthest),
        dy: chance.between(APART, farthest),
        height: chance.edge_in(&HEIGHT),
    };
    let receiver = way.receiver(chance);
    let mut source = way.place(road, &receiver);
    let special = chance.index(3);
    if chance.one_in(3) {
        let daily = tuned_by_day(chance, source, &receiver, special, levels[1]);
        return lone_pair(chance, receiver, Record::PlaceDaily(0, daily));
    }
    for period in 0..3 {
        source.traffic[period] = traffic(chance);
        let level = levels[usize::from(period == special)];
        if let Some(vehicles) = tuned(&source, &receiver, period, level) {
            source.traffic[period].vehicles = vehicles - chance.between(0, 1);
        }
    }
    lone_pair(chance, receiver, Record::PlaceSource(0, source))
}

/// A sum worth asking for: at, just above or just below the energy of a level.
fn telling_sum(chance: &mut Chance) -> i64 {
    match chance.between(0, 5) {
        0 => chance.pick(&[0, 1, FAINTEST - 1, FAINTEST, FAINTEST + 1, TOP - 1, TOP]),
        1 => chance.magnitude(TOP),
        2 => 0,
        _ => energy(chance.between(0, level(TOP).unwrap_or(0))) + chance.between(-1, 1),
    }
}

/// A question to a receiver whose sums are anything.
pub(crate) fn asked(chance: &mut Chance) -> Frame {
    let sums = [(); 3].map(|()| telling_sum(chance));
    question(chance, sums)
}

/// A question about so little noise that the last unit of the mean decides on the tenths.
pub(crate) fn barely_asked(chance: &mut Chance) -> Frame {
    let mut sums = [0; 3];
    for _ in 0..40_000 {
        sums = [700, 400, 100].map(|most| match chance.between(0, 9) {
            0 => 0,
            _ => energy(chance.between(0, most)),
        });
        if on_the_edge(&sums) {
            break;
        }
    }
    question(chance, sums)
}

/// Whether one unit more or less of the mean energy changes the index in tenths.
fn on_the_edge(sums: &[i64; 3]) -> bool {
    let mean = mean_energy(sums);
    let tenths = |energy| level(energy).map(|level| (level + 5) / 10);
    tenths(mean - 1) != tenths(mean) || tenths(mean + 1) != tenths(mean)
}

fn question(chance: &mut Chance, sums: [i64; 3]) -> Frame {
    let town = Town::anywhere(chance);
    let mut book = Book::cleared();
    let slot = chance.edge_in(&RECEIVER_SLOT);
    book.accounts[slot as usize] = Some(Account {
        receiver: town.receiver(chance),
        sums,
    });
    frame_of(&book, &Record::Ask(slot))
}
