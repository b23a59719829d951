// Exchanges by chance: entries placed into slots in use, for jobs and for stored states. What comes
// may be barred or not allowed, and what goes may be such that no history has it.

use crate::aims::{loud_behind_a_wall, screened_pair, wall_before};
use crate::book::{Account, Book, TOP};
use crate::chance::Chance;
use crate::fields::{
    FARTHEST, HEIGHT, RECEIVERS, RECEIVER_SLOT, SOURCE_SLOT, WALL_HEIGHT, WALL_SLOT,
};
use crate::inconsistent::{
    add_neighbours, ample, distance, heard_of, meeting_road, on_the_map, receiver_at, some_wall,
};
use crate::limits::{any_way, HALF_NEAREST};
use crate::probe::Frame;
use crate::record::Record;
use crate::road::{Receiver, Source};
use crate::stores::{broken, disallowed_wall, frame_of, settled, slot_in};
use crate::town::{placing, road, traffic, Town};
use crate::wall::Wall;

/// How far from where one stood another one comes.
const ASIDE: i64 = 60_000;

/// A place some way from another one, on the map.
fn aside(chance: &mut Chance, x: i64, y: i64) -> (i64, i64) {
    let mut beside = |at: i64| (at + chance.between(-ASIDE, ASIDE)).clamp(0, FARTHEST);
    (beside(x), beside(y))
}

/// The same source some way from where it was.
fn moved_aside(chance: &mut Chance, source: Source, from: &Source) -> Source {
    let middle = from.course.middle();
    let (x, y) = aside(chance, middle.x, middle.y);
    on_the_map(source.moved(x, y))
}

/// A source for a receiver to have heard before another one comes into its slot.
pub(crate) fn earlier_source(chance: &mut Chance, receiver: &Receiver) -> Source {
    let way = any_way(chance, 20_000);
    let source = road(chance).uncut(chance.magnitude(600));
    let x = (receiver.x + way.dx).clamp(0, FARTHEST);
    let y = (receiver.y + way.dy).clamp(0, FARTHEST);
    source.moved(x, y)
}

/// Where a receiver stood before it came to where it is.
pub(crate) fn earlier_receiver(chance: &mut Chance, receiver: &Receiver) -> Receiver {
    let (x, y) = aside(chance, receiver.x, receiver.y);
    let height = chance.edge_in(&HEIGHT);
    Receiver { x, y, height }
}

/// A road that is too near, too far, too long or too loud for a receiver, or nearly.
fn barred_source(chance: &mut Chance, receiver: &Receiver) -> Source {
    let source = meeting_road(chance);
    let way = distance(chance, source.course.length().max(HALF_NEAREST), false);
    let here = receiver_at(chance, &source, way);
    let middle = source.course.middle();
    let (dx, dy) = (middle.x - here.x, middle.y - here.y);
    let x = (receiver.x + dx).clamp(0, FARTHEST);
    let y = (receiver.y + dy).clamp(0, FARTHEST);
    on_the_map(source.moved(x, y))
}

/// A record that places a source into a slot in use: another one, the very same, one that a receiver
/// may bar, or one that is not allowed.
fn source_again(chance: &mut Chance, town: &Town, book: &Book) -> Record {
    let slot = slot_in(chance, &book.sources, true);
    let at = slot as i64;
    let account = book.accounts[slot_in(chance, &book.accounts, true)];
    match (chance.between(0, 8), book.sources[slot], account) {
        (0, Some(source), _) => Record::PlaceSource(at, source),
        (1, Some(mut source), _) => {
            source.traffic = [(); 3].map(|()| traffic(chance));
            placing(chance, at, source)
        }
        (2 | 3, _, Some(account)) => {
            let source = barred_source(chance, &account.receiver);
            placing(chance, at, source)
        }
        (4 | 5, ..) => {
            let place = town.placing(chance, at);
            broken(chance, place)
        }
        _ => town.placing(chance, at),
    }
}

/// The same for a receiver.
fn receiver_again(chance: &mut Chance, town: &Town, book: &Book) -> Record {
    let slot = slot_in(chance, &book.accounts, true);
    let source = book.sources[slot_in(chance, &book.sources, true)];
    let receiver = match (chance.between(0, 8), book.accounts[slot], source) {
        (0 | 1, Some(account), _) => account.receiver,
        (2 | 3, _, Some(source)) => {
            let way = distance(chance, source.course.length().max(HALF_NEAREST), false);
            receiver_at(chance, &source, way)
        }
        (4, ..) => Receiver {
            height: chance.pick(&HEIGHT.outer_edges(HEIGHT.bits)),
            ..town.receiver(chance)
        },
        _ => town.receiver(chance),
    };
    Record::PlaceReceiver(slot as i64, receiver)
}

/// The same for a wall, which is mostly aimed at the way from a source to a receiver.
fn wall_again(chance: &mut Chance, town: &Town, book: &Book) -> Record {
    let slot = slot_in(chance, &book.walls, true);
    let wall = match (chance.between(0, 7), book.walls[slot]) {
        (0, Some(wall)) => wall,
        (1 | 2, Some(wall)) => Wall {
            height: chance.edge_in(&WALL_HEIGHT),
            ..wall
        },
        (3, _) => {
            let wall = town.wall(chance);
            disallowed_wall(chance, wall)
        }
        _ => some_wall(chance, book, town),
    };
    Record::PlaceWall(slot as i64, wall)
}

/// A record that places something into a slot in use, if there is such a slot.
pub(crate) fn exchange_in(chance: &mut Chance, town: &Town, book: &Book) -> Record {
    match chance.between(0, 6) {
        0 | 1 => receiver_again(chance, town, book),
        2 | 3 => wall_again(chance, town, book),
        _ => source_again(chance, town, book),
    }
}

/// A state with a history, and an exchange; the sums may be anything where they do not count.
pub(crate) fn exchanged(chance: &mut Chance) -> Frame {
    let (town, mut book) = settled(chance);
    let record = exchange_in(chance, &town, &book);
    if record.source().is_none() && chance.one_in(2) {
        for account in book.accounts.iter_mut().flatten() {
            account.sums = ample(chance);
        }
    }
    frame_of(&book, &record)
}

/// A source to come where another one goes: the very same, with other traffic, or another road some
/// way from there.
fn comer(chance: &mut Chance, goes: &Source) -> Source {
    match chance.between(0, 7) {
        0 => *goes,
        1 | 2 => Source {
            traffic: [(); 3].map(|()| traffic(chance)),
            ..*goes
        },
        3 | 4 => moved_aside(chance, *goes, goes),
        _ => {
            let road = meeting_road(chance);
            moved_aside(chance, road, goes)
        }
    }
}

/// A receiver that accepts one of two sources, or bars it.
fn receiver_of_either(chance: &mut Chance, goes: &Source, comes: &Source) -> Receiver {
    let source = chance.pick(&[*goes, *comes]);
    let accepted = !chance.one_in(3);
    let way = distance(chance, source.course.length().max(HALF_NEAREST), accepted);
    receiver_at(chance, &source, way)
}

/// Puts walls in the way of either source to some receiver.
fn put_walls(chance: &mut Chance, book: &mut Book, goes: &Source, comes: &Source) {
    let at = slot_in(chance, &book.accounts, true);
    if let Some(account) = book.accounts[at] {
        let source = chance.pick(&[*goes, *goes, *comes]);
        for _ in 0..chance.between(1, 4) {
            let wall = wall_before(chance, &source.course, &account.receiver);
            book.walls[chance.edge_in(&WALL_SLOT) as usize] = Some(wall);
        }
    }
}

/// Makes a sum just enough, or just not, for what goes, or gives it just the room, or just not, that
/// is needed for what comes once the other is off.
fn tighten(chance: &mut Chance, account: &mut Account, off: [i64; 3], on: [i64; 3]) {
    let period = chance.index(3);
    let step = chance.between(-1, 1);
    let sum = match chance.between(0, 4) {
        0 | 1 => off[period] + step,
        2 | 3 => TOP - on[period] + off[period] + step,
        _ => TOP,
    };
    account.sums[period] = sum.clamp(0, TOP);
}

/// A source that goes and one that comes, with a few receivers of which each may bar either, sums
/// that are ample or tight, and sometimes walls.
pub(crate) fn exchanged_source(chance: &mut Chance) -> Frame {
    let (loud, quiet) = (meeting_road(chance), road(chance));
    let middle = loud.course.middle();
    let goes = chance.pick(&[loud, quiet.moved(middle.x, middle.y)]);
    let slot = chance.edge_in(&SOURCE_SLOT);
    let comes = comer(chance, &goes);
    let place = placing(chance, slot, comes);
    let comes = place.source().expect("a source is placed");
    let mut book = Book::cleared();
    book.sources[slot as usize] = Some(goes);
    for _ in 0..chance.between(1, 4) {
        let receiver = receiver_of_either(chance, &goes, &comes);
        let sums = ample(chance);
        book.accounts[chance.index(RECEIVERS)] = Some(Account { receiver, sums });
    }
    if chance.one_in(3) {
        put_walls(chance, &mut book, &goes, &comes);
    }
    let walls = book.standing_walls();
    for account in book.accounts.iter_mut().flatten() {
        if chance.one_in(2) {
            let [off, on] = [goes, comes].map(|it| heard_of(&it, &account.receiver, &walls));
            tighten(chance, account, off, on);
        }
    }
    frame_of(&book, &place)
}

/// A wall a few steps from another one, so that both would mostly count together.
fn shifted(chance: &mut Chance, wall: &Wall) -> Wall {
    let (dx, dy) = (chance.between(-3, 3), chance.between(-3, 3));
    let ends = [wall.first, wall.second];
    let [x1, x2] = ends.map(|end| (end.x + dx).clamp(0, FARTHEST));
    let [y1, y2] = ends.map(|end| (end.y + dy).clamp(0, FARTHEST));
    Wall::new(x1, y1, x2, y2, wall.height)
}

/// A wall to come where another one goes: the very same, one of another height, one beside it, or
/// another one between a source and a receiver.
pub(crate) fn wall_for(
    chance: &mut Chance,
    wall: &Wall,
    source: &Source,
    receiver: &Receiver,
) -> Wall {
    match chance.between(0, 5) {
        0 => *wall,
        1 | 2 => Wall {
            height: chance.edge_in(&WALL_HEIGHT),
            ..*wall
        },
        3 | 4 => shifted(chance, wall),
        _ => wall_before(chance, &source.course, receiver),
    }
}

/// A wall before a receiver and a source, which may need it, exchanged for another one while a second
/// wall stands, or not.
pub(crate) fn exchanged_wall(chance: &mut Chance) -> Frame {
    let (receiver, source, wall) = if chance.one_in(3) {
        let (receiver, source) = screened_pair(chance);
        let wall = wall_before(chance, &source.course, &receiver);
        (receiver, source, wall)
    } else {
        loud_behind_a_wall(chance)
    };
    let mut book = Book::cleared();
    let (r, s) = (chance.edge_in(&RECEIVER_SLOT), chance.edge_in(&SOURCE_SLOT));
    let sums = ample(chance);
    book.accounts[r as usize] = Some(Account { receiver, sums });
    book.sources[s as usize] = Some(source);
    if chance.one_in(4) {
        add_neighbours(chance, &mut book, &receiver, &source);
    }
    if chance.one_in(3) {
        let second = wall_before(chance, &source.course, &receiver);
        book.walls[chance.edge_in(&WALL_SLOT) as usize] = Some(second);
    }
    let slot = chance.edge_in(&WALL_SLOT);
    book.walls[slot as usize] = Some(wall);
    let comes = wall_for(chance, &wall, &source, &receiver);
    frame_of(&book, &Record::PlaceWall(slot, comes))
}
