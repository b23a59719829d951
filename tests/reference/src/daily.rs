// Sources told by their daily figure: the class of the road and the vehicles of a day.
// A table says what traffic the two stand for, and the book gets a source like any other.

use crate::course::Course;
use crate::fields::DAILY_FIELDS;
use crate::road::{judge_fields, judge_source, Refusal, Source, Traffic};

/// Table 2 of the VBUS, a row for each class: by day, evening and night M for one vehicle a day,
/// in thousandths of a vehicle per hour, and p in tenths of a percent.
const TABLE_2: [[(i64, i64); 3]; 4] = [
    [(62, 250), (42, 350), (14, 450)],
    [(62, 200), (42, 200), (11, 200)],
    [(62, 200), (42, 150), (8, 100)],
    [(62, 100), (42, 65), (11, 30)],
];

/// A piece of road on which nothing drives yet, its class, and the vehicles of a day.
#[derive(Clone, Copy, Debug, PartialEq, Eq)]
pub struct Daily {
    road: Source,
    class: i64,
    dtv: i64,
}

impl Daily {
    /// The road of an uncut source, whatever its traffic is, with a class and a daily figure.
    pub fn new(source: Source, class: i64, dtv: i64) -> Daily {
        let uncut = matches!(source.course, Course::Uncut { .. });
        assert!(uncut, "a daily figure comes with a middle and a length");
        let road = Source {
            traffic: [Traffic::default(); 3],
            ..source
        };
        Daily { road, class, dtv }
    }

    /// The fields 2 to 15, in their order.
    pub fn fields(&self) -> Vec<i64> {
        let of_its_own = [self.class, self.dtv];
        let mut fields = self.road.fields();
        fields.truncate(DAILY_FIELDS.len() - 1 - of_its_own.len());
        fields.extend(of_its_own);
        fields
    }

    /// The same from where it runs and its fields 5 to 15.
    pub fn of_fields(course: Course, [road @ .., class, dtv]: [i64; 11]) -> Daily {
        let mut common = [0; 15];
        common[..road.len()].copy_from_slice(&road);
        Daily::new(Source::of_fields(course, common), class, dtv)
    }

    /// The source that it stands for; its class must be allowed.
    pub fn source(&self) -> Source {
        let traffic = TABLE_2[self.class as usize].map(|(share, trucks)| Traffic {
            vehicles: share * self.dtv,
            trucks,
        });
        Source {
            traffic,
            ..self.road
        }
    }
}

/// Judges the fields 2 to 15: refusals 5, 6 and 7.
pub fn judge_daily(daily: &Daily) -> Result<(), Refusal> {
    judge_fields(&DAILY_FIELDS[1..], &daily.fields(), |field, value| {
        daily.road.allows(field, value)
    })?;
    judge_source(&daily.source())
}
