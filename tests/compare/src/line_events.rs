//! What the days of internal controllable lines can reach, and their blocks.

use second::line::Controllable;
use second::text::Fault;
use second::trace::Spot;
use second::{Check, Event, LineEvent};

use crate::events::{curves, forms_of_hour, is_of_hour, malformed, ranges_of_hour, ORDERS};

/// What a call with a block, a row and an expected hour can reach.
pub fn of_line_block() -> Vec<Event> {
    let in_block = |event: &Event| match event {
        Event::Refused(Check::Point | Check::Derate, _) => false,
        Event::Refused(_, spot) => is_of_hour(*spot),
        _ => false,
    };
    let mut events: Vec<Event> = Event::refusals().into_iter().filter(in_block).collect();
    events.extend(forms_of_hour());
    events.extend(ranges_of_hour::<Controllable>());
    events.extend(curves());
    events.extend(ORDERS.map(Event::HourSum));
    let of_block = |event: &LineEvent| !matches!(event, LineEvent::Mark(_));
    let of_line = LineEvent::all().into_iter().filter(of_block);
    events.extend(of_line.map(Event::Line));
    events
}

/// What the program `line` can reach: its rows are long enough.
pub fn of_line() -> Vec<Event> {
    let mut events = of_line_block();
    events.retain(|event| !matches!(event, Event::Refused(Check::Room, _)));
    let of_marks = |event: &LineEvent| matches!(event, LineEvent::Mark(_));
    let marks = LineEvent::all().into_iter().filter(of_marks);
    events.extend(marks.map(Event::Line));
    let of_day = |event: &Event| matches!(event, Event::DayHours(_));
    events.extend(Event::counts().into_iter().filter(of_day));
    events.push(Event::DaySurplus);
    events.extend(of_head());
    events
}

/// Every refusal of a head, and what was wrong with the form of its lines.
fn of_head() -> Vec<Event> {
    let in_head = |event: &Event| matches!(event, Event::Refused(_, Spot::LineHead(_)));
    let mut events: Vec<Event> = Event::refusals().into_iter().filter(in_head).collect();
    for (line, value) in [(1, Fault::Number), (2, Fault::Number), (3, Fault::Marks)] {
        let faults = [Fault::Absent, Fault::Unended, Fault::Key, value];
        events.extend(malformed(Spot::LineHead(line), &faults));
    }
    events.extend(malformed(Spot::LineHead(4), &[Fault::Absent, Fault::Extra]));
    events
}
