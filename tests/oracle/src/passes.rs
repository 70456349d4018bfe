//! What request 8 promises of the counts in a report: one for each edge of the expanded routine, how
//! often the path passes it; their total is the path's length less one.

use crate::routine::Routine;
use crate::run;
use std::collections::BTreeMap;

/// Holds the counts of a report of an accepted path against the path. The routine has its calls
/// expanded.
pub fn of_report(routine: &Routine, path: &[u8], report: &[u8]) -> Result<(), String> {
    let path: Vec<usize> = run::vertices(path).collect();
    let Some(parts) = run::Parts::of(report, routine) else {
        return Err(format!("{} bytes are no report", report.len()));
    };
    let mut passed: BTreeMap<(usize, usize), usize> = BTreeMap::new();
    for step in path.windows(2) {
        *passed.entry((step[0], step[1])).or_default() += 1;
    }
    let counts = parts.counts.as_chunks::<2>().0.iter();
    let counts: Vec<usize> = counts
        .map(|&count| u16::from_le_bytes(count).into())
        .collect();
    for (edge, &count) in routine.edges().zip(&counts) {
        let due = passed.get(&edge).copied().unwrap_or(0);
        if count != due {
            return Err(format!(
                "edge {}-{}: {count} times, due {due}",
                edge.0, edge.1
            ));
        }
    }
    let total: usize = counts.iter().sum();
    if total != path.len() - 1 {
        return Err(format!("{total} passes of {} steps", path.len()));
    }
    Ok(())
}
