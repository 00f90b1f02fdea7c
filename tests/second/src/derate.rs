//! What a derate takes from the day-ahead schedules (25.5).

use crate::record::{DayAhead, Interval};
use crate::refusal::Check;
use crate::trace::{DerateKind, Event, Trace};

/// The five schedules in kW: energy, regulation, reserves 1 to 3. This is also
/// the order in which a tie is broken.
pub type Schedules = [i128; 5];

/// The day-ahead schedules of line 1.
pub fn day_ahead_schedules(line: &DayAhead) -> Schedules {
    [line.en, line.reg, line.r1, line.r2, line.r3].map(i128::from)
}

/// The real-time schedules of an interval.
pub fn real_time_schedules(interval: &Interval) -> Schedules {
    [
        interval.en,
        interval.reg,
        interval.r1,
        interval.r2,
        interval.r3,
    ]
    .map(i128::from)
}

/// The day-ahead schedules that an interval is measured by: those of line 1,
/// each less its share of what the derate took away, or DERATE.
pub fn reduced(
    day_ahead: Schedules,
    real_time: Schedules,
    uol: Option<i64>,
    trace: &mut Trace,
) -> Result<Schedules, Check> {
    let Some(uol) = uol else {
        trace.note(Event::Derate(DerateKind::None));
        return Ok(day_ahead);
    };
    let total = (day_ahead.iter().sum::<i128>() - i128::from(uol)).max(0);
    let potential = each(|i| (day_ahead[i] - real_time[i]).max(0));
    let Some(taken) = shares(potential, total, trace) else {
        trace.note(Event::Derate(DerateKind::TooMuch));
        return Err(Check::Derate);
    };
    let left = each(|i| day_ahead[i] - taken[i]);
    if left[0].signum() != day_ahead[0].signum() {
        trace.note(Event::Derate(DerateKind::SignChanged));
    }
    Ok(left)
}

/// Shares `total` kW among the schedules as their potentials are to each
/// other, in whole kW; none if the potentials cannot give so much up.
pub fn shares(potential: Schedules, total: i128, trace: &mut Trace) -> Option<Schedules> {
    let room: i128 = potential.iter().sum();
    if total > room {
        return None;
    }
    if total <= 0 {
        trace.note(Event::Derate(DerateKind::Fits));
        return Some([0; 5]);
    }
    let mut taken = each(|i| potential[i] * total / room);
    let remainder = each(|i| potential[i] * total % room);
    let left_over = total - taken.iter().sum::<i128>();
    // The sort is stable, so equal remainders keep the order of the schedules.
    let mut order = [0, 1, 2, 3, 4];
    order.sort_by_key(|i| -remainder[*i]);
    let left_over = usize::try_from(left_over).unwrap_or(0);
    for i in order.iter().take(left_over) {
        taken[*i] += 1;
    }
    note(order.map(|i| remainder[i]), left_over, trace);
    Some(taken)
}

fn note(falling: Schedules, left_over: usize, trace: &mut Trace) {
    trace.note(Event::Derate(DerateKind::Shared { left_over }));
    let last_served = left_over.checked_sub(1).and_then(|i| falling.get(i));
    if last_served.is_some() && last_served == falling.get(left_over) {
        trace.note(Event::Derate(DerateKind::Tie));
    }
}

fn each(of: impl Fn(usize) -> i128) -> Schedules {
    [of(0), of(1), of(2), of(3), of(4)]
}

#[cfg(test)]
mod tests {
    use super::*;

    fn share(potential: Schedules, total: i128) -> Option<Schedules> {
        shares(potential, total, &mut Trace::off())
    }

    #[test]
    fn p9_the_left_over_kilowatt_goes_to_the_largest_remainder() {
        let potential = [20_000, 10_000, 0, 0, 0];
        assert_eq!(share(potential, 10_000), Some([6667, 3333, 0, 0, 0]));
        assert_eq!(share(potential, 30_000), Some(potential));
        assert_eq!(share(potential, 30_001), None);
    }

    #[test]
    fn ties_go_in_the_order_of_the_schedules() {
        assert_eq!(share([1; 5], 1), Some([1, 0, 0, 0, 0]));
        assert_eq!(share([1; 5], 3), Some([1, 1, 1, 0, 0]));
        assert_eq!(share([0, 0, 7, 7, 7], 2), Some([0, 0, 1, 1, 0]));
        assert_eq!(share([0, 1, 0, 1, 2], 2), Some([0, 1, 0, 0, 1]));
        let mut trace = Trace::new();
        shares([1; 5], 3, &mut trace);
        assert!(trace.saw(Event::Derate(DerateKind::Tie)));
        assert!(trace.saw(Event::Derate(DerateKind::Shared { left_over: 3 })));
    }

    #[test]
    fn no_room_and_nothing_to_take_is_no_reduction() {
        assert_eq!(share([0; 5], 0), Some([0; 5]));
        assert_eq!(share([0; 5], 1), None);
        assert_eq!(share([3, 0, 0, 0, 0], 0), Some([0; 5]));
    }

    /// Shares are whole, sum to the total, never exceed what a schedule can
    /// give up, and differ from the exact share by less than one kW.
    #[test]
    fn shares_are_fair() {
        let mut state = 7_u64;
        let mut next = |bound: u64| {
            state = state
                .wrapping_mul(6_364_136_223_846_793_005)
                .wrapping_add(11);
            i128::from((state >> 33) % bound)
        };
        for _ in 0..3000 {
            let potential = [next(9), next(9), next(9), next(9), next(9)];
            let room: i128 = potential.iter().sum();
            for total in 0..=room {
                let taken = share(potential, total).expect("fits into the room");
                assert_eq!(taken.iter().sum::<i128>(), total);
                for i in 0..5 {
                    assert!(0 <= taken[i] && taken[i] <= potential[i]);
                    let off_by = taken[i] * room - potential[i] * total;
                    assert!(off_by.abs() < room.max(1));
                }
            }
            assert_eq!(share(potential, room + 1), None);
        }
    }

    #[test]
    fn every_interval_starts_from_line_1_and_may_change_sign() {
        // 10 kW of energy to inject, 90 kW withdrawn in real time: the room is
        // 100 kW and a limit of 0 takes the 10 kW scheduled away.
        let day_ahead = [10, 0, 0, 0, 0];
        let real_time = [-90, 0, 0, 0, 0];
        let mut trace = Trace::new();
        let left = reduced(day_ahead, real_time, Some(0), &mut trace);
        assert_eq!(left, Ok([0; 5]));
        assert!(trace.saw(Event::Derate(DerateKind::SignChanged)));
        // With reserves on top, energy goes below zero.
        let left = reduced([10, 0, 50, 0, 0], [-90, 0, 50, 0, 0], Some(0), &mut trace);
        assert_eq!(left, Ok([-50, 0, 50, 0, 0]));
        // A withdrawal enters the sum with its sign.
        let left = reduced([-30, 0, 50, 0, 0], [-30, 0, 0, 0, 0], Some(0), &mut trace);
        assert_eq!(left, Ok([-30, 0, 30, 0, 0]));
        assert_eq!(
            reduced(day_ahead, real_time, None, &mut trace),
            Ok(day_ahead)
        );
        let too_much = reduced([10, 0, 0, 0, 0], [10, 0, 0, 0, 0], Some(9), &mut trace);
        assert_eq!(too_much, Err(Check::Derate));
    }
}
