//! What the texts of a program can reach, as the second program's trace names
//! it. A comparison that never reached one of these has not looked there.

use std::cmp::Ordering;
use std::ops::RangeInclusive;

use second::curve::CurveFault;
use second::energy::{self, Amounts};
use second::import::{CountedImportLine, ImportHourLine, ImportInterval};
use second::record::{Kind, Unit};
use second::text::{Fault, Number, SheetLine, Side};
use second::trace::{DerateKind, ImportTest, Nth, Spot};
use second::{Check, Curve, Event, Interval, MidnightEvent, PointKind, Run};

/// Below, on it, above.
pub(crate) const ORDERS: [Ordering; 3] = [Ordering::Less, Ordering::Equal, Ordering::Greater];

const SIDES: [Side; 2] = [Side::Below, Side::Above];

/// Where a number, which has seven digits at most, cannot lie.
const UNREACHABLE: (i64, Side) = (9_999_999, Side::Above);

/// An excluded hour without a curve was not asked for a point.
const SPARED: Event = Event::Point(PointKind::NowhereExcluded);

/// What the program `hour` can reach.
pub fn of_hour() -> Vec<Event> {
    let in_hour = |event: &Event| match event {
        Event::Refused(Check::Order | Check::Room, _) => false,
        Event::Refused(_, spot) => is_of_hour(*spot),
        _ => false,
    };
    let mut events: Vec<Event> = Event::refusals().into_iter().filter(in_hour).collect();
    events.extend(Event::limits());
    // Only an excluded hour is spared as a whole.
    events.extend(Event::points());
    events.retain(|event| *event != SPARED);
    events.extend(forms_of_hour());
    events.extend(ranges_of_hour::<Unit>());
    events.extend(curves());
    events.extend(derates());
    events.extend(limits());
    events.extend(products());
    events.extend([Ordering::Less, Ordering::Equal].map(Event::Lagging));
    events.extend(ORDERS.map(Event::HourSum));
    events
}

/// What the block call can reach: what `hour` can, and the two checks that it
/// never meets, since it expects no hour and lends a row that is long enough; and
/// excluded hours.
pub fn of_block() -> Vec<Event> {
    let mut events = of_hour();
    events.push(SPARED);
    events.push(Event::Refused(Check::Order, Spot::DayAheadLine));
    events.push(Event::Refused(Check::Room, Spot::WholeHour));
    events
}

/// What the program `day` can reach.
pub fn of_day() -> Vec<Event> {
    let mut events = of_hour();
    events.push(SPARED);
    events.push(Event::Refused(Check::Order, Spot::DayAheadLine));
    events.extend(Event::exclusions());
    events.extend([5, 6].map(Event::MarkWithoutRtc));
    events.push(Event::DaySurplus);
    let of_count = |event: &Event| matches!(event, Event::DayHours(_));
    events.extend(Event::counts().into_iter().filter(of_count));
    events.extend(forms_of_headers());
    events.extend(ranges_of_header(1..=10, Spot::Header));
    events.extend(ranges_of_header(2..=11, Spot::CountedHeader));
    events.extend(MidnightEvent::all().into_iter().map(Event::Midnight));
    events
}

/// What the program `up` can reach: of form 2 it knows FORM, and the wrong way.
pub fn of_up() -> Vec<Event> {
    let mut events = forms_of_headers();
    events.extend(ranges_of_header(1..=10, Spot::Header));
    events.extend(ranges_of_header(1..=1, Spot::CountedHeader));
    events
}

/// What the program `down` can reach: of form 1 it knows FORM, and the wrong
/// way.
pub fn of_down() -> Vec<Event> {
    let mut events = forms_of_headers();
    events.extend(ranges_of_header(1..=1, Spot::Header));
    events.extend(ranges_of_header(2..=11, Spot::CountedHeader));
    events.push(Event::Refused(Check::Back, Spot::CountedHeader(2)));
    events
}

/// FORM at every line of a header of either form, and what was wrong with it.
fn forms_of_headers() -> Vec<Event> {
    let of_form = |event: &Event| {
        let Event::Refused(check, spot) = event else {
            return false;
        };
        *check == Check::Form && is_of_header(*spot)
    };
    let mut events: Vec<Event> = Event::refusals().into_iter().filter(of_form).collect();
    events.extend(forms_of_header(1..=3, Spot::Header));
    // Its first line is the other layout's, too.
    events.extend(forms_of_header(2..=4, Spot::CountedHeader));
    events
}

/// RANGE at these lines of a header.
pub(crate) fn ranges_of_header(
    lines: RangeInclusive<usize>,
    spot: fn(usize) -> Spot,
) -> Vec<Event> {
    let refused = |line| Event::Refused(Check::Range, spot(line));
    lines.map(refused).collect()
}

/// Lines of a header with a number, the seven rows of marks behind them, and
/// the empty line.
fn forms_of_header(numbers: RangeInclusive<usize>, spot: fn(usize) -> Spot) -> Vec<Event> {
    let rows = numbers.end() + 1..numbers.end() + 8;
    let mut events = malformed(spot(rows.end), &[Fault::Absent, Fault::Extra]);
    let values = numbers.map(|line| (line, Fault::Number));
    for (line, value) in values.chain(rows.map(|line| (line, Fault::Marks))) {
        let faults = [Fault::Absent, Fault::Unended, Fault::Key, value];
        events.extend(malformed(spot(line), &faults));
    }
    events
}

/// What the program `import` can reach.
pub fn of_import() -> Vec<Event> {
    let of_import = |event: &Event| match event {
        Event::Refused(_, spot) => is_of_import(*spot),
        Event::ImportHours(_) => true,
        _ => false,
    };
    let all = Event::refusals().into_iter().chain(Event::counts());
    let mut events: Vec<Event> = all.filter(of_import).collect();
    let line = [Fault::Absent, Fault::Unended, Fault::Key, Fault::Number];
    events.extend(malformed(Spot::ImportLine, &line));
    events.extend(malformed(Spot::ImportHourLine, &line));
    for nth in Nth::ALL {
        events.extend(malformed(Spot::ImportIntervalLine(nth), &line[1..]));
    }
    events.extend(malformed(Spot::ImportGap, &[Fault::Absent, Fault::Extra]));
    events.extend(malformed(Spot::ImportExtraLine, &[Fault::Extra]));
    events.extend(ranges(&CountedImportLine::default().numbers()));
    events.extend(ranges(&ImportHourLine::default().numbers()));
    events.extend(ranges(&ImportInterval::default().numbers()));
    events.extend(ImportTest::ALL.map(Event::Import));
    events.extend(ORDERS.map(Event::ImportSum));
    events
}

pub(crate) fn is_of_hour(spot: Spot) -> bool {
    use Spot::*;
    matches!(
        spot,
        DayAheadLine
            | DayAheadCurve
            | RealTimeCurve
            | IntervalLine(_)
            | ExtraLine
            | WholeHour
            | Interval(_)
    )
}

fn is_of_header(spot: Spot) -> bool {
    matches!(spot, Spot::Header(_) | Spot::CountedHeader(_))
}

fn is_of_import(spot: Spot) -> bool {
    !is_of_hour(spot) && !is_of_header(spot) && !matches!(spot, Spot::LineHead(_))
}

pub(crate) fn malformed(spot: Spot, faults: &[Fault]) -> Vec<Event> {
    let event = |fault: &Fault| Event::Malformed(spot, *fault);
    faults.iter().map(event).collect()
}

pub(crate) fn forms_of_hour() -> Vec<Event> {
    let line = [Fault::Unended, Fault::Key, Fault::Number];
    let mut events = malformed(Spot::ExtraLine, &[Fault::Extra]);
    for spot in [Spot::DayAheadLine, Spot::DayAheadCurve, Spot::RealTimeCurve] {
        events.extend(malformed(spot, &line));
        events.extend(malformed(spot, &[Fault::Absent]));
    }
    for spot in [Spot::DayAheadCurve, Spot::RealTimeCurve] {
        events.extend(malformed(spot, &[Fault::Count]));
    }
    for nth in Nth::ALL {
        events.extend(malformed(Spot::IntervalLine(nth), &line));
    }
    events
}

fn ranges(numbers: &[Number]) -> Vec<Event> {
    let mut events = Vec::new();
    for number in numbers {
        for side in SIDES {
            if (number.range.high, side) != UNREACHABLE {
                events.push(Event::OutOfRange(number.line, number.key, side));
            }
        }
    }
    events
}

/// Both sides of every number of a block.
pub(crate) fn ranges_of_hour<K: Kind>() -> Vec<Event> {
    let curve = Curve::new(0, &[(1, 0)]);
    let mut events = ranges(&K::Ahead::default().numbers());
    events.extend(ranges(&curve.numbers("da")));
    events.extend(ranges(&curve.numbers("rt")));
    events.extend(ranges(&K::Interval::default().numbers()));
    events
}

pub(crate) fn curves() -> Vec<Event> {
    let mut events = Vec::new();
    for spot in [Spot::DayAheadCurve, Spot::RealTimeCurve] {
        for fault in [
            CurveFault::StartWithoutSteps,
            CurveFault::Ends,
            CurveFault::Prices,
        ] {
            events.push(Event::CurveBroken(spot, fault));
        }
    }
    events
}

fn derates() -> Vec<Event> {
    let mut kinds = vec![
        DerateKind::None,
        DerateKind::Fits,
        DerateKind::Tie,
        DerateKind::SignChanged,
        DerateKind::TooMuch,
    ];
    kinds.extend((0..=4).map(|left_over| DerateKind::Shared { left_over }));
    kinds.into_iter().map(Event::Derate).collect()
}

/// On which amount each rule's limit can lie alone, and which way its stretch
/// can run: every order of the four amounts and zero is tried.
fn limits() -> Vec<Event> {
    let mut run = Run::default();
    let curve = Curve::new(-9, &[(9, 0)]);
    let few = -4..=4;
    for d in few.clone() {
        for en in few.clone() {
            for ae in few.clone() {
                for eop in few.clone() {
                    let interval = Interval {
                        s: 1,
                        en,
                        ae,
                        co: 9,
                        ..Interval::default()
                    };
                    let amounts = Amounts::of(d.into(), &interval, eop.into());
                    let _ = energy::contribution(amounts, &interval, &curve, &curve, &mut run);
                }
            }
        }
    }
    let of_limit = |event: &Event| matches!(event, Event::Lands(..) | Event::Stretch(..));
    let reached = run.trace.events().map(|(event, _)| event);
    reached.filter(of_limit).collect()
}

fn products() -> Vec<Event> {
    let mut events = vec![Event::Capped, Event::RegulationFloor, Event::Movement];
    for order in ORDERS {
        events.push(Event::Upper(order));
        events.push(Event::Regulation(order));
        events.extend((1..=3).map(|reserve| Event::Reserve(reserve, order)));
    }
    events
}

#[cfg(test)]
mod tests {
    use super::*;
    use crate::line_events::of_line;
    use second::trace::Branch;

    #[test]
    fn limits_know_every_rule() {
        for branch in Branch::ALL {
            let of_branch = |event: &&Event| matches!(event, Event::Stretch(b, _) if *b == branch);
            assert!(limits().iter().any(|event| of_branch(&event)), "{branch:?}");
        }
    }

    #[test]
    fn every_refusal_count_and_point_belongs_to_a_program_or_a_call() {
        let of_days = [of_day(), of_import(), of_line()].concat();
        let known = [of_block(), of_days, of_up(), of_down()].concat();
        for event in [Event::refusals(), Event::counts(), Event::points()].concat() {
            assert!(known.contains(&event), "{event:?}");
        }
    }
}
