// Jobs by chance, of many kinds: towns, jobs tight against each limit, broken jobs.
// A seed stands for one job; its remainder by the number of kinds says which kind it is.

use crate::aims::{loud_behind_a_wall, screened_pair, wall_before};
use crate::chance::Chance;
use crate::cuts::{corner_roads, receiver_beside, stretched_roads, MAKERS};
use crate::daily::Daily;
use crate::exchanges::{earlier_receiver, earlier_source, exchange_in, wall_for};
use crate::faint::{roads_on_the_verge, valley, Valley, FAINT_LEVELS};
use crate::fields::{
    widest, CLASS, DTV, FARTHEST, HEIGHT, LENGTH, RECEIVERS, RECEIVER_SLOT, SOURCES, SOURCE_SLOT,
    WALL_SLOT,
};
use crate::fixed::{example_receiver, one_of_each, with_ends};
use crate::limits::{
    any_way, loud_road, trial_values, tuned, tuned_by_day, way_of_square, Way, APART, FAR_STEPS,
    HALF_NEAREST, HALVES, NEAR_STEPS, PAPER_LENGTHS, PAPER_WAYS,
};
use crate::pieces::BUFFER;
use crate::record::{
    kind_byte, kind_in, length_of, listed_kinds, spare_bits, unlisted_kinds, Record,
};
use crate::road::{Receiver, Source, FARTHEST_SQUARE, LOUDEST, NEAREST_SQUARE};
use crate::town::{any_road, by_day, placing, road, traffic, Draft, Town, WIDE};

/// What makes one kind of job.
type Maker = fn(&mut Chance) -> Vec<u8>;

const KINDS: [Maker; 29] = [
    town,
    churn,
    crowd,
    late,
    near,
    far,
    long,
    cut,
    cut,
    cut_late,
    ends,
    loud,
    faint,
    far_together,
    fields,
    terms,
    sweep,
    daily,
    twins,
    flipped,
    leftover,
    unknown,
    noise,
    screened,
    screened,
    walled_town,
    loud_walled,
    exchanged,
    exchanged,
];

/// The job a seed stands for.
pub fn job(seed: u64) -> Vec<u8> {
    let kind = KINDS[(seed % KINDS.len() as u64) as usize];
    kind(&mut Chance::new(seed))
}

/// The bytes that a long job passes: more than twice what a program holds at a time.
const LONG: usize = 2 * BUFFER + 1;

/// Many busy jobs end to end, none of which stops.
pub fn long_job(seed: u64) -> Vec<u8> {
    let mut chance = Chance::new(seed);
    let mut job = Vec::new();
    while job.len() < LONG {
        job.extend(churn(&mut chance));
    }
    job
}

/// A town in which every record is taken.
fn town(chance: &mut Chance) -> Vec<u8> {
    peaceful_town(chance, 600).bytes
}

fn peaceful_town(chance: &mut Chance, most: i64) -> Draft {
    let town = Town::of_width(chance, WIDE);
    let mut draft = Draft::default();
    for _ in 0..chance.between(20, most) {
        let record = town.record(chance, 200, 40);
        draft.put_if_taken(record);
    }
    draft.ask_all(chance);
    draft
}

/// Few slots and many records, so that most meet what stood before them.
fn churn(chance: &mut Chance) -> Vec<u8> {
    let town = Town::anywhere(chance);
    let (sources, receivers) = (
        chance.between(1, 12) as usize,
        chance.between(1, 6) as usize,
    );
    let mut draft = Draft::default();
    for _ in 0..chance.between(100, 4000) {
        draft.put(town.record(chance, sources, receivers));
    }
    draft.bytes
}

/// Several hundred sources, and receivers in nearly all slots.
fn crowd(chance: &mut Chance) -> Vec<u8> {
    let town = Town::of_width(chance, WIDE);
    let mut draft = Draft::default();
    let sources = chance.edge(200, SOURCES as i64);
    for slot in 0..sources.max(RECEIVERS as i64) {
        if slot < RECEIVERS as i64 {
            draft.put_if_taken(Record::PlaceReceiver(slot, town.receiver(chance)));
        }
        if slot < sources {
            draft.put_if_taken(town.placing(chance, slot));
        }
    }
    draft.ask_all(chance);
    for _ in 0..chance.between(0, 200) {
        draft.put(town.road_record(chance, SOURCES, RECEIVERS));
    }
    draft.ask_all(chance);
    for _ in 0..chance.between(0, 2) {
        draft.put(town.wall_record(chance));
    }
    draft.ask_all(chance);
    draft.bytes
}

/// Receivers that come after the sources, go and come again.
fn late(chance: &mut Chance) -> Vec<u8> {
    let town = Town::of_width(chance, WIDE);
    let mut draft = Draft::default();
    for slot in 0..chance.between(1, 150) {
        draft.put_if_taken(town.placing(chance, slot));
    }
    for _ in 0..chance.between(10, 120) {
        let slot = chance.between(0, 9);
        draft.put(Record::PlaceReceiver(slot, town.receiver(chance)));
        draft.put(Record::Ask(slot));
        if chance.one_in(2) {
            draft.put(Record::WithdrawReceiver(slot));
        }
        if chance.one_in(3) {
            draft.put(Record::WithdrawSource(chance.between(0, 149)));
        }
    }
    draft.ask_all(chance);
    draft.bytes
}

/// Tries a receiver with a source that is told in either way.
fn try_pair(draft: &mut Draft, chance: &mut Chance, receiver: Receiver, source: Source) {
    let place = placing(chance, 0, source);
    try_placings(draft, chance, receiver, place);
}

/// Puts a receiver and what places a source into slots of their own, in either order, every other time
/// where others stand; asks and takes both away again.
fn try_placings(draft: &mut Draft, chance: &mut Chance, receiver: Receiver, place: Record) {
    let (r, s) = (chance.edge_in(&RECEIVER_SLOT), chance.edge_in(&SOURCE_SLOT));
    if chance.one_in(2) {
        let earlier = earlier_receiver(chance, &receiver);
        draft.put(Record::PlaceReceiver(r, earlier));
        draft.put(Record::PlaceSource(s, earlier_source(chance, &receiver)));
        draft.put(Record::Ask(r));
    }
    let mut places = [
        Record::PlaceReceiver(r, receiver),
        place.with(&SOURCE_SLOT, s),
    ];
    if chance.one_in(2) {
        places.reverse();
    }
    for place in places {
        draft.put(place);
        draft.put(Record::Ask(r));
    }
    draft.put(Record::WithdrawSource(s));
    draft.put(Record::Ask(r));
    draft.put(Record::WithdrawReceiver(r));
}

fn try_square(draft: &mut Draft, chance: &mut Chance, square: i64, length: i64) {
    if let Some(way) = way_of_square(chance, square) {
        let receiver = way.receiver(chance);
        let source = road(chance).uncut(length);
        try_pair(draft, chance, receiver, way.place(source, &receiver));
    }
}

/// Squared distances around the nearest that is accepted.
fn near(chance: &mut Chance) -> Vec<u8> {
    let mut draft = Draft::default();
    for _ in 0..40 {
        let square = NEAREST_SQUARE + chance.pick(&NEAR_STEPS);
        let length = chance.pick(&[
            LENGTH.least(),
            100,
            HALF_NEAREST - 1,
            HALF_NEAREST,
            HALF_NEAREST + 1,
        ]);
        try_square(&mut draft, chance, square, length);
    }
    for dx in PAPER_WAYS {
        let way = Way {
            dx: dx * chance.pick(&[-1, 1]),
            dy: 0,
            height: example_receiver().height,
        };
        let receiver = way.receiver(chance);
        let source = road(chance).uncut(100);
        try_pair(&mut draft, chance, receiver, way.place(source, &receiver));
    }
    draft.bytes
}

/// Squared distances around the farthest that is accepted, and from end to end of the map.
fn far(chance: &mut Chance) -> Vec<u8> {
    let mut draft = Draft::default();
    for _ in 0..8 {
        let square = FARTHEST_SQUARE + chance.pick(&FAR_STEPS);
        let length = chance.pick(&[LENGTH.least(), 5000, LENGTH.most() - 1, LENGTH.most()]);
        try_square(&mut draft, chance, square, length);
    }
    for (x, y) in [(0, 0), (FARTHEST, 0), (0, FARTHEST), (FARTHEST, FARTHEST)] {
        let height = chance.within(&HEIGHT);
        let here = Receiver { x, y, height };
        let across = chance.pick(&[0, FARTHEST]);
        let there = road(chance).moved(FARTHEST - x, across);
        try_pair(&mut draft, chance, here, there);
        let near = there.moved((x - 9000).max(0), y);
        try_pair(&mut draft, chance, here, near);
    }
    draft.bytes
}

/// Lengths of just half the distance, and one step around it.
fn long(chance: &mut Chance) -> Vec<u8> {
    let mut draft = Draft::default();
    for _ in 0..12 {
        let length = chance.pick(&HALVES);
        let square = 4 * length * length + chance.pick(&[-1, 0, 1]);
        try_square(&mut draft, chance, square, length);
    }
    for length in PAPER_LENGTHS {
        let way = Way {
            dx: chance.pick(&[2500, -2500]),
            dy: 0,
            height: example_receiver().height,
        };
        let receiver = way.receiver(chance);
        let source = road(chance).uncut(length);
        try_pair(&mut draft, chance, receiver, way.place(source, &receiver));
    }
    draft.bytes
}

/// Roads between two ends before a receiver each, of every kind that there is.
fn cut(chance: &mut Chance) -> Vec<u8> {
    let mut draft = Draft::default();
    for maker in MAKERS {
        for _ in 0..5 {
            let (receiver, source) = maker(chance);
            try_placings(&mut draft, chance, receiver, Record::PlaceSource(0, source));
        }
    }
    draft.bytes
}

/// Long roads between two ends, and receivers that come late and stand beside them, some too near.
fn cut_late(chance: &mut Chance) -> Vec<u8> {
    let width = chance.pick(&[10_000, 40_000, WIDE]);
    let town = Town::of_width(chance, width);
    let mut draft = Draft::default();
    for slot in 0..chance.between(1, 40) {
        draft.put(Record::PlaceSource(slot, town.between(chance)));
    }
    for _ in 0..chance.between(10, 80) {
        let away = chance.magnitude(2000);
        let receiver = match draft.book.sources[chance.index(40)] {
            Some(source) => receiver_beside(chance, &source.course, away),
            None => town.receiver(chance),
        };
        let slot = chance.between(0, 5);
        draft.put(Record::PlaceReceiver(slot, receiver));
        draft.put(Record::Ask(slot));
        if chance.one_in(3) {
            draft.put(Record::WithdrawReceiver(slot));
        }
        if chance.one_in(3) {
            let slot = chance.between(0, 39);
            if chance.one_in(2) {
                draft.put(Record::WithdrawSource(slot));
            }
            draft.put(Record::PlaceSource(slot, town.between(chance)));
        }
    }
    draft.ask_all(chance);
    draft.bytes
}

/// Roads of every length at which they are treated otherwise, with ends anywhere and at the corners
/// of the map, beside a receiver that stands at an end or somewhat off it.
fn ends(chance: &mut Chance) -> Vec<u8> {
    let mut draft = Draft::default();
    for _ in 0..2 {
        let (x, y) = (chance.edge(0, FARTHEST), chance.edge(0, FARTHEST));
        let road = road(chance).moved(x, y);
        let mut roads = stretched_roads(chance, road);
        roads.extend(corner_roads(chance, road));
        for source in roads {
            let away = chance.magnitude(1000);
            let receiver = receiver_beside(chance, &source.course, away);
            try_placings(&mut draft, chance, receiver, Record::PlaceSource(0, source));
        }
    }
    draft.bytes
}

/// Records in any order.
fn shuffled(chance: &mut Chance, mut records: Vec<Record>) -> Vec<Record> {
    for at in (1..records.len()).rev() {
        records.swap(at, chance.index(at + 1));
    }
    records
}

/// Puts records in any order, and asks a receiver after each.
fn put_shuffled(draft: &mut Draft, chance: &mut Chance, records: Vec<Record>, asked: i64) {
    for record in shuffled(chance, records) {
        draft.put(record);
        draft.put(Record::Ask(asked));
    }
}

/// A receiver, a source and walls aimed between them, which come, are exchanged for others and those for
/// them again, and go, each in any order.
fn screened(chance: &mut Chance) -> Vec<u8> {
    let mut draft = Draft::default();
    for _ in 0..20 {
        let (receiver, source) = screened_pair(chance);
        let (r, s) = (chance.edge_in(&RECEIVER_SLOT), chance.edge_in(&SOURCE_SLOT));
        let mut come = vec![
            Record::PlaceReceiver(r, receiver),
            placing(chance, s, source),
        ];
        let mut anew = vec![
            Record::PlaceReceiver(r, earlier_receiver(chance, &receiver)),
            Record::PlaceSource(s, earlier_source(chance, &receiver)),
        ];
        let mut go = vec![Record::WithdrawReceiver(r), Record::WithdrawSource(s)];
        for _ in 0..chance.pick(&[1, 1, 2, 2, 3]) {
            let slot = chance.edge_in(&WALL_SLOT);
            let wall = wall_before(chance, &source.course, &receiver);
            come.push(Record::PlaceWall(slot, wall));
            let other = wall_for(chance, &wall, &source, &receiver);
            anew.push(Record::PlaceWall(slot, other));
            go.push(Record::WithdrawWall(slot));
        }
        for records in [come.clone(), anew, come] {
            put_shuffled(&mut draft, chance, records, r);
        }
        put_shuffled(&mut draft, chance, go, r);
    }
    draft.bytes
}

/// A town with few roads and receivers, in which walls are aimed between any two of them.
fn walled_town(chance: &mut Chance) -> Vec<u8> {
    let width = chance.pick(&[10_000, 40_000, WIDE]);
    let town = Town::of_width(chance, width);
    let mut draft = Draft::default();
    for _ in 0..chance.between(40, 300) {
        let record = match chance.between(0, 3) {
            0 => wall_in(chance, &town, &draft),
            1 => Record::Ask(chance.between(0, 7)),
            _ => town.record(chance, 20, 8),
        };
        draft.put(record);
    }
    draft.ask_all(chance);
    draft.bytes
}

/// A record that places a wall between a road and a receiver that stand, or anywhere.
fn wall_in(chance: &mut Chance, town: &Town, draft: &Draft) -> Record {
    let account = draft.book.accounts[chance.index(8)];
    let source = draft.book.sources[chance.index(20)];
    let wall = match (account, source) {
        (Some(account), Some(source)) => wall_before(chance, &source.course, &account.receiver),
        _ => town.wall(chance),
    };
    Record::PlaceWall(chance.between(0, 5), wall)
}

/// Roads that are too loud without a wall which takes enough, or just not: without the wall they
/// cannot come, and while they stand it cannot go, but others can come in its place.
fn loud_walled(chance: &mut Chance) -> Vec<u8> {
    let mut draft = Draft::default();
    for _ in 0..30 {
        let (receiver, source, wall) = loud_behind_a_wall(chance);
        let (r, s) = (chance.edge_in(&RECEIVER_SLOT), chance.edge_in(&SOURCE_SLOT));
        let w = chance.edge_in(&WALL_SLOT);
        draft.put(Record::PlaceWall(w, wall));
        draft.put(Record::PlaceReceiver(r, receiver));
        draft.put(Record::PlaceSource(s, source));
        draft.put(Record::Ask(r));
        for _ in 0..2 {
            let other = wall_for(chance, &wall, &source, &receiver);
            draft.put(Record::PlaceWall(w, other));
            draft.put(Record::Ask(r));
        }
        let go = vec![
            Record::WithdrawWall(w),
            Record::WithdrawSource(s),
            Record::WithdrawReceiver(r),
        ];
        put_shuffled(&mut draft, chance, go, r);
        draft.put(Record::WithdrawWall(w));
    }
    draft.bytes
}

/// A town with a few slots in use, in which entries are exchanged: for others, for themselves and for
/// such as cannot come. All receivers are asked after each, and while all sources go.
fn exchanged(chance: &mut Chance) -> Vec<u8> {
    let width = chance.pick(&[10_000, 40_000, WIDE, WIDE]);
    let town = Town::of_width(chance, width);
    let mut draft = Draft::default();
    let sources = chance.between(1, 12);
    for slot in 0..sources {
        draft.put(town.placing(chance, slot));
    }
    for slot in 0..chance.between(1, 5) {
        draft.put(Record::PlaceReceiver(slot, town.receiver(chance)));
    }
    for slot in 0..chance.between(0, 3) {
        draft.put(Record::PlaceWall(slot, town.wall(chance)));
    }
    for _ in 0..chance.between(20, 120) {
        let record = exchange_in(chance, &town, &draft.book);
        draft.put(record);
        draft.ask_all(chance);
    }
    for slot in 0..sources {
        draft.put(Record::WithdrawSource(slot));
        draft.ask_all(chance);
    }
    draft.bytes
}

/// A receiver and a way to a source, from the nearest to the given distance.
fn some_way(chance: &mut Chance, farthest: i64) -> (Receiver, Way) {
    let way = any_way(chance, farthest);
    (way.receiver(chance), way)
}

/// Share levels around the loudest that is accepted, in one period or in all, or by a daily figure.
fn loud(chance: &mut Chance) -> Vec<u8> {
    let mut draft = Draft::default();
    for _ in 0..60 {
        let (receiver, way) = some_way(chance, 900);
        let mut source = way.place(loud_road(chance), &receiver);
        if chance.one_in(3) {
            try_tuned_by_day(&mut draft, chance, receiver, source, LOUDEST + 1);
            continue;
        }
        let special = chance.between(0, 3) as usize;
        for period in 0..3 {
            source.traffic[period] = traffic(chance);
            let level = if period == special || special == 3 {
                LOUDEST + 1
            } else {
                LOUDEST - 1000
            };
            if let Some(vehicles) = tuned(&source, &receiver, period, level) {
                source.traffic[period].vehicles = vehicles - chance.between(0, 1);
            }
        }
        try_placings(&mut draft, chance, receiver, Record::PlaceSource(0, source));
    }
    draft.bytes
}

/// Tries a road by a daily figure that brings one period's share level to the given one.
fn try_tuned_by_day(
    draft: &mut Draft,
    chance: &mut Chance,
    receiver: Receiver,
    road: Source,
    level: i64,
) {
    let period = chance.index(3);
    let daily = tuned_by_day(chance, road, &receiver, period, level);
    try_placings(draft, chance, receiver, Record::PlaceDaily(0, daily));
}

/// Share levels around zero and below it, of one road or of several that come to a certain sum.
fn faint(chance: &mut Chance) -> Vec<u8> {
    let mut draft = Draft::default();
    for _ in 0..60 {
        let (receiver, way) = some_way(chance, WIDE);
        let source = road(chance).uncut(chance.magnitude(300));
        let source = way.place(source, &receiver);
        match chance.between(0, 5) {
            0 => {
                let level = chance.pick(&FAINT_LEVELS);
                try_tuned_by_day(&mut draft, chance, receiver, source, level);
            }
            1 | 2 => try_faint(&mut draft, chance, receiver, source),
            _ => try_verge(&mut draft, chance, receiver),
        }
    }
    draft.bytes
}

/// Tries a road with a faint level in each period, or with none.
fn try_faint(draft: &mut Draft, chance: &mut Chance, receiver: Receiver, mut source: Source) {
    for period in 0..3 {
        let level = chance.pick(&FAINT_LEVELS);
        let vehicles = tuned(&source, &receiver, period, level).unwrap_or(0);
        source.traffic[period].vehicles = chance.pick(&[vehicles, vehicles, 0]);
    }
    try_placings(draft, chance, receiver, Record::PlaceSource(0, source));
}

/// Tries roads that come to a sum of which one unit decides, in any order; sometimes one of them has
/// somewhat less traffic, or none, in one period.
fn try_verge(draft: &mut Draft, chance: &mut Chance, receiver: Receiver) {
    let Some(mut roads) = roads_on_the_verge(chance, &receiver) else {
        return;
    };
    if chance.one_in(3) {
        let at = chance.index(roads.len());
        let traffic = &mut roads[at].traffic[chance.index(3)];
        traffic.vehicles = chance.pick(&[0, traffic.vehicles - 1]);
    }
    let (r, first) = (chance.edge_in(&RECEIVER_SLOT), chance.edge(0, 500));
    let mut come: Vec<Record> = (first..)
        .zip(roads)
        .map(|(slot, road)| Record::PlaceSource(slot, road))
        .collect();
    let go = come
        .iter()
        .map(|place| Record::WithdrawSource(place.slot()))
        .collect();
    come.push(Record::PlaceReceiver(r, receiver));
    put_shuffled(draft, chance, come, r);
    put_shuffled(draft, chance, go, r);
    draft.put(Record::WithdrawReceiver(r));
}

/// Hundreds of far roads that are each below zero at a few receivers: they come one by one until they
/// are heard together, a wall comes and goes, and they go until all is quiet again.
fn far_together(chance: &mut Chance) -> Vec<u8> {
    let mut draft = Draft::default();
    let Valley { receivers, roads } = valley(chance);
    let late = RECEIVER_SLOT.most();
    for (slot, &receiver) in (0..).zip(&receivers) {
        draft.put(Record::PlaceReceiver(slot, receiver));
    }
    let places = (0..).zip(&roads);
    let come = places.map(|(slot, &road)| Record::PlaceSource(slot, road));
    put_shuffled(&mut draft, chance, come.collect(), 0);
    let wall = wall_before(chance, &roads[0].course, &receivers[0]);
    for record in [
        Record::PlaceWall(0, wall),
        Record::PlaceReceiver(late, receivers[0]),
        Record::WithdrawWall(0),
    ] {
        draft.put(record);
        draft.ask_all(chance);
    }
    let go = (0..roads.len() as i64).map(Record::WithdrawSource);
    put_shuffled(&mut draft, chance, go.collect(), late);
    draft.ask_all(chance);
    draft.bytes
}

/// Every field at its limits and one step beyond, of sources, of receivers and of walls.
fn fields(chance: &mut Chance) -> Vec<u8> {
    let mut draft = Draft::default();
    let (receiver, way) = some_way(chance, 20_000);
    draft.put(Record::PlaceReceiver(0, receiver));
    let source = way.place(road(chance), &receiver);
    let daily = by_day(chance, source);
    for place in [
        Record::PlaceSource(0, source),
        Record::PlaceDaily(0, daily),
        Record::PlaceSource(0, with_ends(source)),
    ] {
        for field in &place.fields()[1..] {
            for value in trial_values(chance, field, field.bits) {
                try_source(&mut draft, chance, place.with(field, value));
            }
        }
    }
    let other = Record::PlaceReceiver(1, receiver);
    for field in &other.fields()[1..] {
        for value in trial_values(chance, field, field.bits) {
            try_receiver(&mut draft, chance, other.with(field, value));
        }
    }
    let wall = Record::PlaceWall(2, wall_before(chance, &source.course, &receiver));
    for field in &wall.fields()[1..] {
        for value in trial_values(chance, field, field.bits) {
            try_wall(&mut draft, chance, wall.with(field, value));
        }
    }
    try_slots(&mut draft, chance);
    draft.bytes
}

/// Puts one record of every kind on slots that may not be allowed.
fn try_slots(draft: &mut Draft, chance: &mut Chance) {
    for record in one_of_each() {
        let slot = &record.fields()[0];
        for value in trial_values(chance, slot, slot.bits) {
            draft.put(record.with(slot, value));
        }
    }
}

/// Places a source that may not be allowed, asks the first receiver and takes it away, or leaves it to
/// the next one.
fn try_source(draft: &mut Draft, chance: &mut Chance, place: Record) {
    let leave = Record::WithdrawSource(place.slot());
    put_and_ask(draft, chance, [place, Record::Ask(0), leave]);
}

/// The same for a receiver, which is asked itself.
fn try_receiver(draft: &mut Draft, chance: &mut Chance, place: Record) {
    let leave = Record::WithdrawReceiver(place.slot());
    put_and_ask(draft, chance, [place, Record::Ask(place.slot()), leave]);
}

/// The same for a wall.
fn try_wall(draft: &mut Draft, chance: &mut Chance, place: Record) {
    let leave = Record::WithdrawWall(place.slot());
    put_and_ask(draft, chance, [place, Record::Ask(0), leave]);
}

/// Puts what places something and a question, and every other time what takes it away.
fn put_and_ask(draft: &mut Draft, chance: &mut Chance, [place, ask, leave]: [Record; 3]) {
    draft.put(place);
    draft.put(ask);
    if chance.one_in(2) {
        draft.put(leave);
    }
}

/// One road after the other before one receiver, each with every field anew.
fn terms(chance: &mut Chance) -> Vec<u8> {
    let mut draft = Draft::default();
    let mut farthest = APART + 40;
    while farthest < WIDE {
        let (receiver, way) = some_way(chance, farthest);
        draft.put(Record::PlaceReceiver(0, receiver));
        for _ in 0..20 {
            let source = way.place(any_road(chance), &receiver);
            let place = placing(chance, 0, source);
            try_source(&mut draft, chance, place);
        }
        draft.put(Record::WithdrawReceiver(0));
        farthest += farthest / 4;
    }
    draft.bytes
}

/// One field run through its values, the others held.
fn sweep(chance: &mut Chance) -> Vec<u8> {
    let mut draft = Draft::default();
    let (receiver, way) = some_way(chance, 9_000);
    draft.put(Record::PlaceReceiver(0, receiver));
    for _ in 0..4 {
        let source = way.place(any_road(chance), &receiver);
        let base = placing(chance, 0, source);
        let field = chance.pick(&base.fields()[1 + source.course.fields().len()..]);
        let most = widest(field.bits);
        for turn in 0..=255.min(most) {
            let value = if most > 255 {
                chance.magnitude(most)
            } else {
                turn
            };
            try_source(&mut draft, chance, base.with(&field, value));
        }
    }
    draft.bytes
}

/// A road by any class and daily figure, allowed or not, and then the same with its traffic told.
fn daily(chance: &mut Chance) -> Vec<u8> {
    let mut draft = Draft::default();
    let (receiver, way) = some_way(chance, 9_000);
    draft.put(Record::PlaceReceiver(0, receiver));
    for class in CLASS.least()..=CLASS.most() {
        for dtv in trial_values(chance, &DTV, DTV.bits) {
            let road = way.place(road(chance), &receiver);
            let daily = Daily::new(road, class, dtv);
            try_source(&mut draft, chance, Record::PlaceDaily(0, daily));
            try_source(&mut draft, chance, Record::PlaceSource(0, daily.source()));
        }
    }
    draft.bytes
}

/// Equal sources in many slots, told in every way there is, which all count, taken away one by one.
fn twins(chance: &mut Chance) -> Vec<u8> {
    let mut draft = Draft::default();
    let (receiver, way) = some_way(chance, 30_000);
    let source = way.place(any_road(chance), &receiver);
    let place = placing(chance, 0, source);
    let source = place.source().expect("a source is placed");
    let ways = [place, Record::PlaceSource(0, source)];
    draft.put(Record::PlaceReceiver(9, receiver));
    let more = chance.between(1, 31);
    let first = chance.edge(0, SOURCE_SLOT.most() - more);
    let last = first + more;
    for slot in first..=last {
        draft.put(chance.pick(&ways).with(&SOURCE_SLOT, slot));
        draft.put(Record::Ask(9));
    }
    draft.put(Record::PlaceReceiver(8, receiver));
    draft.put(Record::Ask(8));
    for slot in first..=last {
        draft.put(Record::WithdrawSource(slot));
        draft.put(Record::Ask(9));
    }
    draft.bytes
}

/// A town's job with some bits turned, anywhere or within the fields only.
fn flipped(chance: &mut Chance) -> Vec<u8> {
    let mut draft = peaceful_town(chance, 200);
    let anywhere = chance.one_in(3);
    for _ in 0..chance.between(1, 60) {
        let at = chance.index(draft.bytes.len());
        let kind_here = draft.starts.binary_search(&at).is_ok();
        let bits = if kind_here && !anywhere { 4 } else { 8 };
        draft.bytes[at] ^= 1 << chance.index(bits);
    }
    draft.bytes
}

/// A town's job in which leftover bits are set here and there.
fn leftover(chance: &mut Chance) -> Vec<u8> {
    let mut draft = peaceful_town(chance, 200);
    for &start in &draft.starts {
        let kind = kind_in(draft.bytes[start]);
        let spare = spare_bits(kind);
        let length = length_of(kind).unwrap_or(1);
        if spare > 0 && chance.one_in(4) {
            draft.bytes[start + length - 1] |= 1 << chance.index(spare as usize);
        }
    }
    draft.bytes
}

/// A town's job with a kind that is not listed, or broken off within a record.
fn unknown(chance: &mut Chance) -> Vec<u8> {
    let mut draft = peaceful_town(chance, 60);
    if chance.one_in(2) {
        let at = chance.pick(&draft.starts);
        let kind = chance.pick(&unlisted_kinds());
        draft.bytes[at] = kind_byte(kind) | (draft.bytes[at] & 15);
    } else {
        let whole = draft.bytes.len();
        draft.bytes.truncate(chance.index(whole));
    }
    draft.bytes
}

/// Bytes by chance, the first of each few of a listed kind.
fn noise(chance: &mut Chance) -> Vec<u8> {
    let tame = chance.between(0, 3);
    let mut bytes = Vec::new();
    for _ in 0..chance.between(0, 40) {
        let kind = match chance.between(0, tame) {
            0 => kind_in(chance.draw() as u8),
            _ => chance.pick(&listed_kinds()),
        };
        bytes.push(kind_byte(kind) | chance.between(0, 15) as u8);
        for _ in 1..length_of(kind).unwrap_or(1) {
            bytes.push(chance.draw() as u8 & chance.draw() as u8);
        }
    }
    bytes
}
