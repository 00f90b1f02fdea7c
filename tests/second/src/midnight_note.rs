//! Notes of what a day reached with its neighbours, taken on the side.

use crate::header::{read_header, spot_of, Header, FORMS};
use crate::joined::{Headers, JoinedHour, REACH};
use crate::midnight::{Beside, MidnightEvent, Neighbour, Says};
use crate::refusal::{Check, Refusal};
use crate::text::Cut;
use crate::trace::{Event, Reason, Spot, Trace};

fn note(event: MidnightEvent, trace: &mut Trace) {
    trace.note(Event::Midnight(event));
}

fn says(header: &Header) -> Says {
    (header.form, header.hours)
}

/// Notes which neighbours stand beside a good day.
pub(crate) fn stand(headers: &Headers, trace: &mut Trace) {
    let stand = MidnightEvent::Stand {
        before: headers.before.is_some(),
        after: headers.after.is_some(),
    };
    note(stand, trace);
}

/// Notes what neighbours did to an hour of the own day, and what they did not.
pub(crate) fn hour(headers: &Headers, hour: usize, trace: &mut Trace) {
    let reasons = headers.reasons(hour);
    note_own_rtc(headers, &reasons, hour, trace);
    let row = headers.row();
    for hours in -REACH - 1..=REACH + 1 {
        let other = row.beside(hour, hours);
        let Some((from, other)) = other.and_then(|other| Some((other.of?, other))) else {
            continue;
        };
        if hours.abs() <= REACH {
            note_mark(headers, &reasons, from, other, hours, trace);
        } else if reasons.is_empty() {
            let acting = (4..=6).filter(|mark| other.acts(*mark));
            acting.for_each(|mark| note(MidnightEvent::TooFar(mark, hours), trace));
        }
    }
}

/// Notes whose `rtc` an own x5 or x6 went by.
fn note_own_rtc(headers: &Headers, reasons: &[Reason], hour: usize, trace: &mut Trace) {
    let own = &headers.own;
    let neighbours = [
        (Neighbour::Before, &headers.before),
        (Neighbour::After, &headers.after),
    ];
    for mark in 5..=6 {
        let nothing_else = || reasons.iter().all(|r| *r == Reason::Spread(mark, 0));
        if !own.is_set(mark, hour) || !nothing_else() {
            continue;
        }
        for (beside, theirs) in neighbours {
            if let Some(theirs) = theirs {
                let rtc = MidnightEvent::OwnRtc {
                    mark,
                    own: own.rtc,
                    beside,
                    theirs: theirs.rtc,
                };
                note(rtc, trace);
            }
        }
    }
}

/// Notes what an hour of a neighbour within reach did to an hour that is excluded
/// for these reasons.
fn note_mark(
    headers: &Headers,
    reasons: &[Reason],
    from: Neighbour,
    other: JoinedHour<'_>,
    hours: isize,
    trace: &mut Trace,
) {
    let (theirs, own) = (other.day, &headers.own);
    if matches!(reasons, [Reason::Over(_, of)] if *of == hours) {
        let alone = MidnightEvent::Alone {
            from,
            theirs: says(theirs),
            own: says(own),
        };
        note(alone, trace);
        if theirs.has_no_category(other.hour) {
            note(MidnightEvent::FromNoCategory(from), trace);
        }
    }
    for mark in 5..=6 {
        let nothing_else = || reasons.iter().all(|r| *r == Reason::Over(mark, hours));
        if theirs.is_set(mark, other.hour) && nothing_else() {
            let rtc = MidnightEvent::Rtc {
                mark,
                from,
                theirs: theirs.rtc,
                own: own.rtc,
            };
            note(rtc, trace);
        }
    }
    if reasons.is_empty() {
        for reason in theirs.own_reasons(other.hour) {
            note(MidnightEvent::Stays(from, reason), trace);
        }
    }
}

/// Notes a header that is refused by itself, and which later one would be, too.
pub(crate) fn refused(cuts: [&Cut<'_>; 3], header: usize, refusal: Refusal, trace: &mut Trace) {
    let cut = cuts[header];
    let spot = spot_of(cut, refusal.place);
    note(MidnightEvent::Refused(header, refusal.check, spot), trace);
    match (&cut.lines[..], cut.closed) {
        ([], false) => note(MidnightEvent::Ended(header), trace),
        ([], true) => note(MidnightEvent::OwnLacks, trace),
        ([line], true) if line.bytes.trim_ascii().is_empty() => {
            note(MidnightEvent::Blank(header), trace);
        }
        _ => {}
    }
    let alone = cuts.map(|cut| read_header(cut, &FORMS, &mut Trace::off()));
    for later in header + 1..=2 {
        // Where the text has ended already there is nothing to be found.
        let stands = !cuts[later].lines.is_empty();
        if let (true, Err(fault)) = (stands, &alone[later]) {
            let both = MidnightEvent::FaultBehind {
                first: (header, refusal.check),
                later: (later, fault.check),
            };
            note(both, trace);
        }
    }
    if let (2, [Ok(before), Ok(own), _]) = (header, &alone) {
        if before.unit != own.unit {
            note(MidnightEvent::UnitBehind, trace);
        }
    }
}

/// Notes a neighbour, header 0 or 2, that is refused for its unit.
pub(crate) fn unit(headers: &Headers, header: usize, trace: &mut Trace) {
    let (of, refused, other) = match header {
        0 => (Neighbour::Before, &headers.before, &headers.after),
        _ => (Neighbour::After, &headers.after, &headers.before),
    };
    let Some(refused) = refused else { return };
    let at = match refused.unit_line() {
        2 => Spot::Header(2),
        line => Spot::CountedHeader(line),
    };
    let other = match other {
        None => Beside::Lacks,
        Some(other) if other.unit == headers.own.unit => Beside::SameUnit,
        Some(_) => Beside::OtherUnit,
    };
    trace.note(Event::Refused(Check::Range, at));
    note(MidnightEvent::OtherUnit { of, at, other }, trace);
}
