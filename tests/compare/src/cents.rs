//! Hours and days around a cent: they lie where one grain decides which cent is
//! the nearest, and show who rounds otherwise.

use second::import::ImportHour;
use second::record::{Kind, Record, MOST_INTERVALS};
use second::{cents, day, hour, Answer, Ask, DayAnswer, Run, Trace, GRAINS_PER_CENT};

use crate::random::Rng;
use crate::{import, line_hours};

/// Halves and wholes of a cent.
const EDGES: [i128; 3] = [1_800_000, 3_600_000, 5_400_000];

/// Makes sure that the sums of these rows lie at these edges and a grain beside
/// them, and that many show who rounds down, who takes a half down, and who rounds
/// each part of a row.
fn lie_around(edges: &[i128], rows: &[Vec<i128>]) {
    let sums: Vec<i128> = rows.iter().map(|row| row.iter().sum()).collect();
    for edge in edges {
        for sum in [edge - 1, *edge, edge + 1] {
            assert!(sums.contains(&sum), "{sum}");
        }
    }
    let mut shown = [0; 3];
    for (row, sum) in rows.iter().zip(sums) {
        let down = sum.max(0) / GRAINS_PER_CENT;
        let half_down = cents(sum - 1);
        let each = row.iter().map(|part| cents(*part)).sum();
        for (shown, wrong) in shown.iter_mut().zip([down, half_down, each]) {
            *shown += usize::from(wrong != cents(sum));
        }
    }
    let many = rows.len() / 10;
    assert!(shown.iter().all(|times| *times > many), "{shown:?}");
}

/// The contributions of hours that are made so.
fn contributions<K: Kind>(make: fn(&mut Rng) -> Record<K>) -> Vec<Vec<i128>> {
    let of = |index| {
        let row = &mut [0; MOST_INTERVALS];
        let record = make(&mut Rng::new(8, index));
        let answer = hour::judge_record(&record, Ask::default(), row, &mut Run::default());
        assert!(matches!(answer, Answer::Paid(_)), "{answer:?}");
        row.map(i128::from).to_vec()
    };
    (0..300).map(of).collect()
}

#[test]
fn hours_of_generators_and_lines() {
    let below = [-3_600_000, -1_800_000, 0];
    let edges = [&below[..], &EDGES].concat();
    lie_around(&edges, &contributions(crate::hour::around_a_cent));
    lie_around(&edges, &contributions(line_hours::around_a_cent));
}

#[test]
fn days_of_imports() {
    let sums = |index| -> Vec<i128> {
        let hours = import::hours_around_a_cent(&mut Rng::new(8, index), None);
        let sum = |hour: &ImportHour| hour.grains(0, &mut Trace::off()).max(0);
        hours.iter().map(sum).collect()
    };
    lie_around(&EDGES, &(0..300).map(sums).collect::<Vec<_>>());
}

#[test]
fn totals_are_not_those_of_the_grains() {
    let mut apart = 0;
    for turn in 0..60 {
        let text = crate::day::around_a_cent(&mut Rng::new(8, turn as u64), turn);
        let DayAnswer::Judged(day) = day::judge(&text, &mut Run::default()) else {
            panic!("the headers are good");
        };
        let grains = |hour: &Answer| match hour {
            Answer::Paid(paid) => paid.grains.max(0),
            Answer::Refused(refusal) => panic!("{refusal}"),
        };
        let sum = day.hours.iter().map(grains).sum();
        apart += usize::from(day.total() != Some(cents(sum)));
    }
    assert!(apart > 40, "{apart} of 60");
}
