//! How many inputs of each kind were tried, how often each number was answered, and what was
//! looked at.

use crate::check::Checked;
use crate::drawn::Drawn;
use crate::library::{Form, Input};
use std::collections::{BTreeMap, BTreeSet};
use std::fmt;

/// Every answer of a call, 0 being success. Rounds have those of a plan.
const PLAN_ANSWERS: [u64; 15] = [0, 1, 10, 11, 12, 13, 14, 15, 16, 17, 18, 19, 20, 21, 22];
const RUN_ANSWERS: [u64; 18] = [
    0, 2, 10, 11, 12, 13, 14, 15, 16, 17, 18, 19, 20, 21, 22, 30, 31, 32,
];

const CONVERT_ANSWERS: [u64; 7] = [0, 1, 20, 21, 40, 41, 42];
const CONVERT_AND_RUN_ANSWERS: [u64; 10] = [0, 2, 20, 21, 30, 31, 32, 40, 41, 42];

/// How often each number was answered.
type Answers = BTreeMap<u64, u64>;

#[derive(Clone, Debug, Default)]
pub struct Tally {
    pub kinds: BTreeMap<&'static str, u64>,
    plans: Answers,
    runs: Answers,
    conversions: Answers,
    /// Of conversions whose routine was run.
    converted_runs: Answers,
    rounds: Answers,
    /// Inputs whose labels were expected by the literal rules, and by data flow.
    literal: u64,
    fixpoint: u64,
    /// Directive files that were expected by whole states, and by sets.
    states: u64,
    sets: u64,
    /// Reports of the library on which demand 3 and the counts of edges were judged.
    judged: u64,
    /// References in them at which mappings were judged.
    references: u64,
    pub drawn: Drawn,
}

fn add(answers: &mut Answers, more: &Answers) {
    for (&number, count) in more {
        *answers.entry(number).or_default() += count;
    }
}

impl Tally {
    /// Counts an input of a kind and what it showed.
    pub fn count(&mut self, kind: &'static str, input: &Input, checked: &Checked) {
        *self.kinds.entry(kind).or_default() += 1;
        let (answers, literal, fixpoint) = match input {
            Input::Plan { .. } => (&mut self.plans, &mut self.literal, &mut self.fixpoint),
            Input::Run { .. } => (&mut self.runs, &mut self.literal, &mut self.fixpoint),
            Input::Convert { .. } => (&mut self.conversions, &mut self.states, &mut self.sets),
            Input::ConvertAndRun { .. } => {
                (&mut self.converted_runs, &mut self.states, &mut self.sets)
            }
            Input::Rounds { .. } => (&mut self.rounds, &mut self.literal, &mut self.fixpoint),
        };
        for &number in &checked.numbers {
            *answers.entry(number).or_default() += 1;
        }
        *literal += u64::from(checked.form == Form::Literal);
        *fixpoint += u64::from(checked.form == Form::Fixpoint);
        self.judged += u64::from(checked.judged);
        self.references += checked.references as u64;
    }

    pub fn add(&mut self, other: &Tally) {
        for (kind, count) in &other.kinds {
            *self.kinds.entry(kind).or_default() += count;
        }
        add(&mut self.plans, &other.plans);
        add(&mut self.runs, &other.runs);
        add(&mut self.conversions, &other.conversions);
        add(&mut self.converted_runs, &other.converted_runs);
        add(&mut self.rounds, &other.rounds);
        self.literal += other.literal;
        self.fixpoint += other.fixpoint;
        self.states += other.states;
        self.sets += other.sets;
        self.judged += other.judged;
        self.references += other.references;
        self.drawn.add(&other.drawn);
    }

    /// What was to be seen and was not: answers that no call gave (`plan 16`, `run 32`), a form of
    /// the rules, demand 3 and the counts of each report, references in mappings, and shares of the drawn inputs.
    pub fn missing(&self) -> Vec<String> {
        let never = |call: &str, answers: &[u64], given: &Answers| {
            let missing = answers.iter().filter(|number| !given.contains_key(number));
            let named = missing.map(|number| format!("{call} {number}"));
            named.collect::<Vec<_>>()
        };
        let mut missing = never("plan", &PLAN_ANSWERS, &self.plans);
        missing.extend(never("run", &RUN_ANSWERS, &self.runs));
        missing.extend(never("convert", &CONVERT_ANSWERS, &self.conversions));
        missing.extend(never(
            "convert and run",
            &CONVERT_AND_RUN_ANSWERS,
            &self.converted_runs,
        ));
        missing.extend(never("rounds", &PLAN_ANSWERS, &self.rounds));
        // An accepted run answers 0 with the two buffers that are long enough.
        let reports = |answers: &Answers| answers.get(&0).map_or(0, |count| count / 2);
        let reports = reports(&self.runs) + reports(&self.converted_runs);
        for (name, seen) in [
            ("labels by the literal rules", self.literal > 0),
            ("labels by data flow", self.fixpoint > 0),
            ("conversions by whole states", self.states > 0),
            ("conversions by sets", self.sets > 0),
            ("demand 3 and counts of each report", self.judged == reports),
            ("references in mappings", self.references > 0),
        ] {
            missing.extend((!seen).then(|| String::from(name)));
        }
        missing.extend(self.drawn.lacking().into_iter().map(String::from));
        missing
    }

    pub fn inputs(&self) -> u64 {
        self.kinds.values().sum()
    }
}

impl fmt::Display for Tally {
    fn fmt(&self, f: &mut fmt::Formatter) -> fmt::Result {
        writeln!(f, "{:<40}{:>9}", "kind of input", "inputs")?;
        for (kind, count) in &self.kinds {
            writeln!(f, "{kind:<40}{count:>9}")?;
        }
        writeln!(
            f,
            "{:<10}{:>13}{:>13}{:>13}{:>16}{:>13}",
            "answer", "plans", "runs", "conversions", "converted runs", "rounds"
        )?;
        let calls = [
            &self.plans,
            &self.runs,
            &self.conversions,
            &self.converted_runs,
            &self.rounds,
        ];
        let numbers: BTreeSet<u64> = calls.iter().flat_map(|call| call.keys().copied()).collect();
        for number in numbers {
            let [plans, runs, conversions, converted_runs, rounds] =
                calls.map(|answers| answers.get(&number).copied().unwrap_or(0));
            write!(f, "{number:<10}{plans:>13}{runs:>13}")?;
            writeln!(f, "{conversions:>13}{converted_runs:>16}{rounds:>13}")?;
        }
        write!(f, "{}", self.drawn)?;
        let Tally {
            literal,
            fixpoint,
            states,
            sets,
            judged,
            references,
            ..
        } = self;
        writeln!(
            f,
            "labels expected by the literal rules on {literal} inputs, by data flow on {fixpoint}"
        )?;
        writeln!(
            f,
            "conversions expected by whole states on {states} inputs, by sets on {sets}"
        )?;
        writeln!(
            f,
            "demand 3 and counts of edges judged on {judged} reports of the library"
        )?;
        writeln!(f, "mappings judged at {references} references in them")
    }
}
