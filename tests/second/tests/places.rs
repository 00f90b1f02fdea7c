//! Every refusal at every kind of place and every exclusion, as the trace of the
//! inputs that reach them.

mod common;

use common::line::line_day;
use common::*;
use second::day::HOURS;
use second::trace::{Branch, ImportTest, Nth, Reason, Spot};
use second::{archive, day, hour, import, line, Ask, Check, Curve, Event, Header, Headers};
use second::{HourRecord, Interval, LineEvent, Moved, Run};

/// An hour of thirty intervals in each of which a unit runs below its
/// day-ahead schedule.
fn thirty() -> HourRecord {
    let mut record = still_hour(5);
    record.day_ahead.en = 100;
    record.da = Curve::new(0, &[(50, 10), (100, 20)]);
    record.rt = Curve::new(0, &[(50, 10), (100, 20)]);
    let run = Interval {
        en: 80,
        ae: 80,
        eop: Some(80),
        pen: 30,
        ..still(120)
    };
    record.set_intervals(&[run; 30]);
    record
}

/// The rows of marks of a header.
const ROWS: [&str; 7] = ["cat", "x1", "x2", "x3", "x4", "x5", "x6"];

const KINDS: [(Nth, usize); 3] = [(Nth::First, 1), (Nth::Inner, 17), (Nth::Last, 30)];

/// Judges a block and makes sure that it is refused as expected.
#[track_caller]
fn block_refused(run: &mut Run, text: &str, ask: Ask, check: Check, place: usize, spot: Spot) {
    let before = run.trace.count(Event::Refused(check, spot));
    let answer = hour::judge_block(text.as_bytes(), ask, &mut [0; 30], run);
    let refusal = second::Refusal::new(check, place);
    assert_eq!(answer, second::Answer::Refused(refusal));
    assert_eq!(run.trace.count(Event::Refused(check, spot)), before + 1);
}

fn refused_hours(run: &mut Run) {
    let text = thirty().to_text();
    let ask = Ask::default();
    let lines = [
        (1, "hour", Spot::DayAheadLine),
        (2, "da", Spot::DayAheadCurve),
        (3, "rt", Spot::RealTimeCurve),
    ];
    let intervals = KINDS.map(|(nth, i)| (3 + i, "ae", Spot::IntervalLine(nth)));
    for (line, key, spot) in lines.into_iter().chain(intervals) {
        let form = with_value(&text, line, key, "x");
        block_refused(run, &form, ask, Check::Form, line, spot);
        let range = with_value(&text, line, key, "9999999");
        block_refused(run, &range, ask, Check::Range, line, spot);
    }
    let extra = format!("{text}x\n");
    block_refused(run, &extra, ask, Check::Form, 34, Spot::ExtraLine);
    let other = Ask {
        expected: Some(6),
        ..ask
    };
    block_refused(run, &text, other, Check::Order, 1, Spot::DayAheadLine);
    let curve = with_value(&text, 2, "da", "50");
    block_refused(run, &curve, ask, Check::Curve, 2, Spot::DayAheadCurve);
    let curve = with_value(&text, 3, "rt", "50");
    block_refused(run, &curve, ask, Check::Curve, 3, Spot::RealTimeCurve);
    let seconds = with_value(&text, 33, "s", "119");
    block_refused(run, &seconds, ask, Check::Seconds, 0, Spot::WholeHour);
    refused_intervals(run, &text, ask);
    let answer = hour::judge_record(&thirty(), ask, &mut [0; 29], run);
    assert_eq!(answer.cents(), None);
}

/// What an interval of the block is refused for, whichever it is.
fn refused_intervals(run: &mut Run, text: &str, ask: Ask) {
    let no_curve = with_line(text, 3, "rt=0 n=0");
    for (nth, i) in KINDS {
        let point = with_value(&no_curve, 3 + i, "eop", "-");
        block_refused(run, &point, ask, Check::Point, i, Spot::Interval(nth));
        let derate = with_value(text, 3 + i, "uol", "79");
        block_refused(run, &derate, ask, Check::Derate, i, Spot::Interval(nth));
        let rise = with_value(&with_value(text, 3 + i, "en", "101"), 3 + i, "ae", "101");
        block_refused(run, &rise, ask, Check::Reach, i, Spot::Interval(nth));
    }
}

fn judge_alone(sheet: &str, run: &mut Run) {
    day::judge(alone(sheet).as_bytes(), run);
}

fn refused_headers(run: &mut Run) {
    let text = day_of(&Header::default(), &still_hours());
    for line in 1..=10 {
        judge_alone(&with_line(&text, line, "x"), run);
    }
    judge_alone(&without_line(&text, 11), run);
    for (line, key, value) in [(1, "form", "3"), (2, "unit", "0"), (3, "rtc", "2")] {
        judge_alone(&with_value(&text, line, key, value), run);
    }
    for (i, key) in ROWS.into_iter().enumerate() {
        judge_alone(&with_value(&text, 4 + i, key, &"2".repeat(24)), run);
    }
}

fn refused_counted_headers(run: &mut Run) {
    let text = counted_day(25);
    for line in 2..=11 {
        judge_alone(&with_line(&text, line, "x"), run);
    }
    judge_alone(&without_line(&text, 12), run);
    for (line, key) in [(2, "hours"), (3, "unit"), (4, "rtc")] {
        judge_alone(&with_value(&text, line, key, "-1"), run);
    }
    for (i, key) in ROWS.into_iter().enumerate() {
        judge_alone(&with_value(&text, 5 + i, key, &"2".repeat(25)), run);
    }
}

fn refused_line_heads(run: &mut Run) {
    let text = line_day(25);
    let mut judge = |text: String| {
        line::judge(text.as_bytes(), run);
    };
    for line in 1..=3 {
        judge(with_line(&text, line, "x"));
    }
    judge(without_line(&text, 4));
    judge(with_value(&text, 1, "line", "0"));
    judge(with_value(&text, 2, "hours", "26"));
    judge(with_value(&text, 3, "mark", &"3".repeat(25)));
}

/// What only stored sheets are refused for: their way.
fn refused_archives(run: &mut Run) {
    let text = counted_day(25);
    let refused = [
        (archive::up(text.as_bytes(), run), Check::Range, 1),
        (archive::down(text.as_bytes(), run), Check::Back, 2),
    ];
    for (moved, check, line) in refused {
        assert_eq!(moved, Moved::Refused(second::Refusal::new(check, line)));
    }
}

fn refused_imports(run: &mut Run) {
    let mut hours = one_cent_imports();
    for hour in hours.iter_mut() {
        let mut interval = hour.intervals[0];
        interval.s = 120;
        hour.intervals = vec![interval; 30];
    }
    let text = import_of(7, 0, &hours);
    let mut judge = |text: &str| {
        import::judge(text.as_bytes(), run);
    };
    judge(&with_line(&text, 1, "x"));
    judge(&with_line(&text, 2, "x"));
    judge(&with_value(&text, 1, "cts", "2"));
    judge(&format!("{text}x"));
    // Block 2 starts on line 67.
    judge(&with_line(&text, 67, "x"));
    judge(&with_value(&text, 67, "den", "-1"));
    judge(&with_value(&text, 67, "hour", "3"));
    judge(&with_value(&text, 97, "s", "119"));
    judge(&with_line_before(&text, 98, "x"));
    for (_, i) in KINDS {
        judge(&with_line(&text, 67 + i, "x"));
        judge(&with_value(&text, 67 + i, "cut", "2"));
    }
}

#[test]
fn every_refusal_at_every_kind_of_place() {
    let mut run = Run::default();
    refused_hours(&mut run);
    refused_headers(&mut run);
    refused_counted_headers(&mut run);
    refused_line_heads(&mut run);
    refused_archives(&mut run);
    refused_imports(&mut run);
    assert_eq!(run.trace.missing(Event::refusals()), []);
    // And no refusal at a place where there can be none.
    let possible = Event::refusals();
    for (event, _) in run.trace.events() {
        if matches!(event, Event::Refused(..)) {
            assert!(possible.contains(&event), "{event:?}");
        }
    }
}

#[test]
fn every_count_of_hours() {
    let mut run = Run::default();
    for hours in 23..=25 {
        judge_alone(&counted_day(hours), &mut run);
        import::judge(counted_import(hours as i64).as_bytes(), &mut run);
    }
    assert_eq!(run.trace.missing(Event::counts()), []);
    // A sheet that does not say them has 24.
    judge_alone(&Header::default().to_text(), &mut run);
    import::judge(import_of(7, 0, &[]).as_bytes(), &mut run);
    assert_eq!(run.trace.count(Event::DayHours(24)), 2);
    assert_eq!(run.trace.count(Event::ImportHours(24)), 2);
    // A header that is refused has none.
    judge_alone(&Header::counted(26).to_text(), &mut run);
    import::judge(counted_import(26).as_bytes(), &mut run);
    assert!(!run.trace.saw(Event::DayHours(26)));
    assert!(!run.trace.saw(Event::ImportHours(26)));
}

#[test]
fn every_mark_of_a_line() {
    let mut run = Run::default();
    for hours in 23..=25 {
        let mut row = "0120".repeat(6) + "1";
        row.truncate(hours);
        let text = with_value(&line_day(hours), 3, "mark", &row);
        line::judge(text.as_bytes(), &mut run);
        assert!(run.trace.saw(Event::DayHours(hours as i64)));
    }
    let count = |mark| run.trace.count(Event::Line(LineEvent::Mark(mark)));
    assert_eq!([count(0), count(1), count(2)], [35, 19, 18]);
}

#[test]
fn every_exclusion() {
    let mut run = Run::default();
    let mut header = Header {
        rtc: 1,
        ..Header::default()
    };
    header.cat[0] = 0;
    for mark in 0..6 {
        header.x[mark][2 + 4 * (mark % 5)] = 1;
    }
    let headers = Headers {
        before: Some(header.clone()),
        own: header.clone(),
        after: Some(header.clone()),
    };
    judge_alone(&header.to_text(), &mut run);
    let over = |event: &Event| matches!(event, Event::Excluded(Reason::Over(..)));
    let (over, within): (Vec<Event>, Vec<Event>) = Event::exclusions().into_iter().partition(over);
    assert_eq!(run.trace.missing(within), []);
    assert_eq!(run.trace.missing(over.clone()), over);
    assert!(!run.trace.saw(Event::MarkWithoutRtc(5)));
    over_midnight(headers, &mut run);
    assert_eq!(run.trace.missing(Event::exclusions()), []);
    header.rtc = 0;
    run.trace.clear();
    judge_alone(&header.to_text(), &mut run);
    assert!(run.trace.saw(Event::MarkWithoutRtc(5)));
    assert!(run.trace.saw(Event::MarkWithoutRtc(6)));
    assert!(!run.trace.saw(Event::Excluded(Reason::Spread(5, 0))));
    assert!(run.trace.saw(Event::Excluded(Reason::Spread(4, -2))));
}

/// Judges the days with x4 to x6 of both neighbours at midnight.
fn over_midnight(mut headers: Headers, run: &mut Run) {
    for (day, hour) in [(&mut headers.before, 23), (&mut headers.after, 0)] {
        let rows = day.iter_mut().flat_map(|day| &mut day.x[3..]);
        rows.for_each(|row| row[hour] = 1);
    }
    day::judge(headers.to_text().as_bytes(), run);
}

#[test]
fn why_an_import_counts_or_not() {
    let mut run = Run::default();
    let mut hours = one_cent_imports();
    hours[0].intervals[0].prof = 0;
    hours[1].intervals[0].bid = 9;
    for cts in 0..=1 {
        import::judge(import_of(7, cts, &hours).as_bytes(), &mut run);
    }
    assert_eq!(run.trace.missing(ImportTest::ALL.map(Event::Import)), []);
    assert_eq!(run.trace.count(Event::Import(ImportTest::Counts)), 22);
}

#[test]
fn traces_add_up_and_can_be_off() {
    let text = alone(&day_of(&Header::default(), &still_hours()));
    let mut run = Run::default();
    day::judge(text.as_bytes(), &mut run);
    let once = run.trace.clone();
    day::judge(text.as_bytes(), &mut run);
    let mut twice = once.clone();
    twice.add(&once);
    assert_eq!(run.trace, twice);
    let still = Event::Limit(Branch::UpperNothing);
    assert_eq!(once.count(still), 4 * HOURS as u64);
    assert!(once.to_string().contains("96 Limit(UpperNothing)\n"));
    let mut quiet = Run::quiet(second::Way::Steps);
    day::judge(text.as_bytes(), &mut quiet);
    assert_eq!(quiet.trace.events().count(), 0);
}
