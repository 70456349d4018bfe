//! Routines and paths through them.

use super::{Shrinker, drop_exit, drop_vertex};
use crate::library::Input;
use oracle::builder::{Draft, LOCAL, call_in, path_bytes, remap};
use oracle::calls::{Part, Place, is_call};
use oracle::routine::MAX_VERSIONS;

#[derive(Clone)]
struct Parts {
    routine: Result<Draft, Vec<u8>>,
    /// By the file's vertices, so that it keeps its meaning where other rows change. Numbers beyond
    /// the expanded routine's follow on the file's last vertex.
    path: Option<Vec<Place>>,
    odd_byte: bool,
    /// Whether rounds are asked for, and no plan.
    rounds: bool,
}

/// The vertices that the rows of a routine become, and the first one's number for each row.
fn numbering(routine: &Result<Draft, Vec<u8>>) -> (Vec<Place>, Vec<usize>) {
    let places = routine.as_ref().map_or_else(|_| Vec::new(), Draft::places);
    let is_first = |&number: &usize| matches!(places[number].part, Part::Whole | Part::Before);
    let firsts = (0..places.len()).filter(is_first).collect();
    (places, firsts)
}

impl Parts {
    fn of(input: &Input) -> Parts {
        let routine = Draft::from_bytes(input.file()).ok_or_else(|| input.file().to_vec());
        let (places, firsts) = numbering(&routine);
        let step = |&word: &[u8; 2]| {
            let number = usize::from(u16::from_le_bytes(word));
            places.get(number).copied().unwrap_or_else(|| Place {
                vertex: number - places.len() + firsts.len(),
                part: Part::Whole,
            })
        };
        let path = |path: &[u8]| path.as_chunks().0.iter().map(step).collect();
        Parts {
            path: input.path().map(path),
            routine,
            odd_byte: input.path().is_some_and(|path| path.len() % 2 == 1),
            rounds: matches!(input, Input::Rounds { .. }),
        }
    }

    /// The path's numbers. Of a call whose row is none any more the first vertex is left.
    fn numbers(&self, path: &[Place]) -> Vec<u16> {
        let (places, firsts) = numbering(&self.routine);
        let number = |step: &Place| {
            let Some(&first) = firsts.get(step.vertex) else {
                return Some(step.vertex - firsts.len() + places.len());
            };
            let is_call = places[first].part == Part::Before;
            match step.part {
                Part::Whole | Part::Before => Some(first),
                Part::Inside => is_call.then_some(first + 1),
                Part::After => is_call.then_some(first + 2),
            }
        };
        let numbers = path.iter().filter_map(number);
        numbers.map(|number| number as u16).collect()
    }
}

impl super::Parts for Parts {
    type Step = Place;

    fn input(&self) -> Input {
        let routine = match &self.routine {
            Ok(draft) => draft.bytes(),
            Err(bytes) => bytes.clone(),
        };
        let Some(path) = &self.path else {
            return match self.rounds {
                true => Input::rounds(routine),
                false => Input::plan(routine),
            };
        };
        let mut path = path_bytes(&self.numbers(path));
        path.extend(self.odd_byte.then_some(0));
        Input::run(routine, path)
    }

    fn path(&mut self) -> Option<&mut Vec<Place>> {
        self.path.as_mut()
    }

    fn bytes(&mut self) -> Option<&mut Vec<u8>> {
        self.routine.as_mut().err()
    }
}

/// A small input that still fails, from one that fails.
pub fn shrink(input: Input, fails: &dyn Fn(&Input) -> bool) -> Input {
    let best = Parts::of(&input);
    // The parts may lose the value of an odd last byte.
    if !fails(&super::Parts::input(&best)) {
        return input;
    }
    let mut shrinker = Shrinker::new(best, fails);
    shrinker.repeat(|shrinker| {
        shrinker.attempt(|parts| parts.odd_byte = false);
        shrinker.cut_path();
        shrinker.drop_arrays();
        shrinker.clear_rows();
        shrinker.drop_vertices();
        shrinker.drop_edges(|parts| parts.routine.as_mut().ok().map(|draft| &mut draft.edges));
        shrinker.lower_actions();
        shrinker.simplify_arrays();
        shrinker.drop_loops();
        shrinker.cut_bytes();
    });
    super::Parts::input(&shrinker.best)
}

impl Shrinker<'_, Parts> {
    /// An attempt at a change of the parts of a routine.
    fn attempt_draft(&mut self, change: impl FnOnce(&mut Draft)) -> bool {
        self.attempt(|parts| {
            if let Ok(draft) = &mut parts.routine {
                change(draft);
            }
        })
    }

    fn draft(&self) -> Option<&Draft> {
        self.best.routine.as_ref().ok()
    }

    fn drop_arrays(&mut self) {
        for array in (0..self.draft().map_or(0, |draft| draft.arrays.len())).rev() {
            self.attempt_draft(|draft| {
                draft.arrays.remove(array);
                for row in &mut draft.rows {
                    row.remove(array);
                }
            });
        }
    }

    /// Takes out vertices but the entry: the exit, so that the vertex before it becomes
    /// the exit, and the others with or without edges past them.
    fn drop_vertices(&mut self) {
        let last = |draft: &mut Draft| {
            let nothing = vec![0; draft.arrays.len()];
            drop_exit(&mut draft.rows, &mut draft.edges, nothing);
        };
        while self.attempt_draft(last) {}
        let vertices = self.draft().map_or(0, |draft| draft.rows.len());
        for vertex in (1..vertices.saturating_sub(1)).rev() {
            for bypass in [false, true] {
                let taken = self.attempt(|parts| {
                    if let Ok(draft) = &mut parts.routine {
                        drop_vertex(&mut draft.rows, &mut draft.edges, vertex as u16, bypass);
                    }
                    if let Some(path) = &mut parts.path {
                        path.retain(|step| step.vertex != vertex);
                        for step in path {
                            step.vertex -= usize::from(step.vertex > vertex);
                        }
                    }
                });
                if taken {
                    break;
                }
            }
        }
    }

    /// All rows at once, then each.
    fn clear_rows(&mut self) {
        self.attempt_draft(|draft| draft.rows.iter_mut().for_each(|row| row.fill(0)));
        for vertex in 0..self.draft().map_or(0, |draft| draft.rows.len()) {
            self.attempt_draft(|draft| draft.rows[vertex].fill(0));
        }
    }

    fn lower_actions(&mut self) {
        let (vertices, arrays) = self
            .draft()
            .map_or((0, 0), |draft| (draft.rows.len(), draft.arrays.len()));
        for vertex in 0..vertices {
            for array in 0..arrays {
                self.lower_action(vertex, array);
            }
        }
    }

    /// A lower byte, of another family first; of a call also with a lower version.
    fn lower_action(&mut self, vertex: usize, array: usize) {
        let old = self.draft().map_or(0, |draft| draft.rows[vertex][array]);
        let mut bytes = vec![0, remap(0), remap(1), call_in(0), call_in(1)];
        if is_call(&[old]) {
            bytes.extend([old & 0xe0, old & 0xe0 | 1]);
        }
        for byte in bytes {
            if self.attempt_draft(|draft| draft.rows[vertex][array] = byte.min(old)) {
                break;
            }
        }
    }

    fn simplify_arrays(&mut self) {
        for array in 0..self.draft().map_or(0, |draft| draft.arrays.len()) {
            self.attempt_draft(|draft| draft.arrays[array][0] = LOCAL);
            self.attempt_draft(|draft| draft.arrays[array][2] = 0);
            self.attempt_draft(|draft| draft.arrays[array][3] = 0);
            for versions in 1..=MAX_VERSIONS as u8 {
                let lower = |draft: &mut Draft| {
                    let old = &mut draft.arrays[array][1];
                    *old = versions.min(*old);
                };
                if self.attempt_draft(lower) {
                    break;
                }
            }
        }
    }
}
