//! The stretch of time that each record stands for. Where no record is, nothing is covered.

/// From half a step before a record to half a step after it.
#[derive(Clone, Copy, Debug, PartialEq)]
pub struct Cell {
    pub from: f64,
    pub to: f64,
}

/// Times further apart than this many usual steps have a gap between them.
const GAP: f64 = 3.0;

/// The usual step where one time is all there is, in seconds.
const LONE_STEP: f64 = 60.0;

/// A record says nothing of shadow or revolution long before and after it.
const LONGEST_STEP: f64 = 600.0;

/// The median of the steps between times in rising order that differ, or the longest that a record covers.
pub fn usual_step(times: &[i64]) -> f64 {
    let mut steps: Vec<i64> = times.windows(2).map(|pair| pair[1] - pair[0]).collect();
    steps.retain(|step| *step > 0);
    steps.sort_unstable();
    steps.get(steps.len() / 2).map_or(LONE_STEP, |step| (*step as f64).min(LONGEST_STEP))
}

/// A cell for each of some times in rising order. Cells meet halfway, except over a gap.
pub fn cells(times: &[i64]) -> Vec<Cell> {
    let step = usual_step(times);
    let bound = |before: Option<&i64>, after: Option<&i64>| match (before, after) {
        (Some(before), Some(after)) if (after - before) as f64 <= GAP * step => {
            Some((*before as f64 + *after as f64) / 2.0)
        }
        _ => None,
    };
    (0..times.len())
        .map(|at| {
            let before = at.checked_sub(1).and_then(|before| times.get(before));
            let (time, after) = (times[at], times.get(at + 1));
            Cell {
                from: bound(before, Some(&time)).unwrap_or(time as f64 - step / 2.0),
                to: bound(Some(&time), after).unwrap_or(time as f64 + step / 2.0),
            }
        })
        .collect()
}

/// A stretch of cells that meet and have the same key.
#[derive(Clone, Debug, PartialEq)]
pub struct Run<K> {
    pub key: K,
    pub from: f64,
    pub to: f64,
    /// Whether it begins where the run before it ends.
    pub meets: bool,
}

pub fn runs<K: PartialEq>(cells: &[Cell], keys: impl Iterator<Item = K>) -> Vec<Run<K>> {
    let mut runs: Vec<Run<K>> = Vec::new();
    for (cell, key) in cells.iter().zip(keys) {
        let meets = runs.last().is_some_and(|run| run.to == cell.from);
        match runs.last_mut() {
            Some(run) if meets && run.key == key => run.to = cell.to,
            _ => runs.push(Run { key, from: cell.from, to: cell.to, meets }),
        }
    }
    runs
}

#[cfg(test)]
mod tests {
    use super::*;

    #[test]
    fn a_gap_is_not_covered() {
        let times = [0, 90, 180, 270, 2_000, 2_090];
        let cells = cells(&times);
        let runs = runs(&cells, times.iter().map(|_| ()));
        assert_eq!(runs.len(), 2);
        assert_eq!((runs[0].from, runs[0].to), (-45.0, 315.0));
        assert_eq!((runs[1].from, runs[1].to), (1_955.0, 2_135.0));
        assert!(!runs[0].meets && !runs[1].meets);
    }

    #[test]
    fn keys_meet_halfway() {
        let cells = cells(&[0, 100, 200, 300]);
        let runs = runs(&cells, [1, 1, 2, 2].into_iter());
        assert_eq!(
            runs.iter().map(|run| (run.from, run.to)).collect::<Vec<_>>(),
            [(-50.0, 150.0), (150.0, 350.0)]
        );
        assert!(runs[1].meets);
    }

    /// Two records a day apart tell nothing of the day between.
    #[test]
    fn a_long_step_is_a_gap() {
        let cells = cells(&[0, 86_400]);
        assert_eq!((cells[0].to, cells[1].from), (300.0, 86_100.0));
    }

    #[test]
    fn one_time() {
        assert_eq!(cells(&[5]), [Cell { from: -25.0, to: 35.0 }]);
        assert_eq!(cells(&[5, 5]).len(), 2);
        assert!(cells(&[]).is_empty());
    }
}
