//! The verdict and the handover, on generated and damaged pairs.

use std::collections::BTreeMap;
use std::fmt::Write;

use waymaker_core::RecordRef;

use crate::Settings;
use crate::cases::Case;
use crate::failures::{Failures, failed_outcomes, records_of};
use crate::gates;
use crate::judge::Judge;
use crate::pairs::{Pair, journal_of};
use crate::pairs_list;
use crate::random::Random;
use crate::reader::{MOST_BYTES, Step, read_journal, read_plan};
use crate::report::{differ_on_pair, same_pair, same_words};
use crate::resume::{Handover, Verdict, handover};
use crate::samples;
use crate::terminals::Terminals;
use crate::too_soon;
use crate::writing;

/// Pairs whose plan has up to so many steps are also checked against the definition.
const JUDGED: u64 = 40;

pub fn run(settings: &Settings) -> String {
    let mut random = Random::new(settings.seed);
    let mut compared = Compared::default();
    for (journal, plan) in pairs_list::list() {
        compared.pair(&journal, &plan);
    }
    for cases in [
        too_soon::cases(),
        too_soon::stored(),
        gates::cases(),
        gates::stored(),
    ] {
        cases.iter().for_each(|case| compared.owed(case));
    }
    for _ in 0..settings.pairs {
        let steps = random.below(9) as usize;
        let pair = Pair::at_random(&mut random, steps, 6);
        compared.generated(&mut random, &pair);
    }
    for _ in 0..settings.pairs / 500 {
        let steps = random.pick(&[20, 200, 511, 512, 580]);
        let most_body = random.pick(&[0, 3, 15]);
        let pair = Pair::at_random(&mut random, steps, most_body);
        compared.generated(&mut random, &pair);
        let pair = Pair::at_random(&mut random, 2, 9_000);
        compared.generated(&mut random, &pair);
    }
    compared.told()
}

#[derive(Default)]
struct Compared {
    pairs: u64,
    handovers: u64,
    judged: u64,
    /// How often each answer was given: the ending's word, or number and divergence.
    answers: BTreeMap<String, u64>,
    failures: Failures,
    terminals: Terminals,
}

impl Compared {
    /// The pair as it is, or with some bytes changed.
    fn generated(&mut self, random: &mut Random, pair: &Pair) {
        let run = random.any();
        let mut journal = journal_of(run, &pair.items).bytes();
        let mut plan = writing::plan(pair.capability, &pair.steps).bytes();
        match random.below(12) {
            0 => change_bytes(random, &mut journal),
            1 => change_bytes(random, &mut plan),
            _ => {}
        }
        self.pair(&journal, &plan);
    }

    /// The pair; its line, words and handovers are those that are written out, and where that line refuses it,
    /// no boundary has bytes.
    fn owed(&mut self, case: &Case) {
        let (journal, plan) = (&case.journal[..], &case.plan[..]);
        let said = self.pair(journal, plan).to_string();
        if said != case.line {
            let what = format!("Owed:   {}\nRust:   {said}", case.line);
            differ_on_pair(&what, journal, plan);
        }
        if let Some(words) = &case.words {
            same_words(words, journal, plan);
        }
        for (boundary, owed) in (0..).zip(&case.handed) {
            let said = handover(journal, plan, boundary);
            if said != *owed {
                let what = format!("handover of {boundary}\nOwed:   {owed:?}\nRust:   {said:?}");
                differ_on_pair(&what, journal, plan);
            }
        }
        if let Some(number) = case.refused()
            && (0..5).any(|at| handover(journal, plan, at) != Handover::Refused(number))
        {
            differ_on_pair("a handover of a refused pair", journal, plan);
        }
    }

    fn pair(&mut self, journal: &[u8], plan: &[u8]) -> Verdict {
        let steps = read_plan(plan).map_or(0, |plan| plan.count());
        let boundaries = || (0..=steps + 1).chain([1 << 32, u64::MAX]);
        let verdict = same_pair(journal, plan, boundaries());
        self.pairs += 1;
        self.handovers += steps + 4;
        *self.answers.entry(answer(&verdict)).or_default() += 1;
        self.count_failed(journal, plan, &verdict);
        self.terminals.add_pair(journal, plan, &verdict);
        if steps <= JUDGED {
            self.judge(journal, plan, &verdict, boundaries());
        }
        verdict
    }

    /// Checks the count of failed outcomes of an accepted pair: all its records are accepted.
    fn count_failed(&mut self, journal: &[u8], plan: &[u8], verdict: &Verdict) {
        self.failures.add_journal(journal, verdict);
        if let Verdict::Ok { failed, .. } = *verdict
            && failed != failed_outcomes(&records_of(journal))
        {
            differ_on_pair("another count of failed outcomes", journal, plan);
        }
    }

    /// Checks the answers against the definition, where both files are readable.
    fn judge(
        &mut self,
        journal: &[u8],
        plan: &[u8],
        verdict: &Verdict,
        boundaries: impl Iterator<Item = u64>,
    ) {
        let (Ok(records), Ok(steps)) = (read_journal(journal), read_plan(plan)) else {
            return;
        };
        let records: Vec<RecordRef> = records.records().collect();
        let judge = Judge::new(steps.capability(), steps.steps().collect::<Vec<Step>>());
        self.judged += 1;
        if let Some(contradiction) = judge.contradiction(&records, verdict) {
            differ_on_pair(contradiction, journal, plan);
        }
        if let Verdict::Ok { ending, stop, .. } = *verdict
            && let Some(boundary) =
                judge.wrong_handover((journal, plan), &records, (ending, stop), boundaries)
        {
            differ_on_pair(&format!("handover of {boundary}"), journal, plan);
        }
    }

    fn told(&self) -> String {
        let mut told = format!(
            "{} pairs ({} held against the definition), {} handovers; answers:",
            self.pairs, self.judged, self.handovers
        );
        for (answer, pairs) in &self.answers {
            write!(told, " {answer}: {pairs}").expect("a string takes all text");
        }
        told + "; " + &self.failures.told() + "; " + &self.terminals.told()
    }
}

fn answer(verdict: &Verdict) -> String {
    match verdict {
        Verdict::Ok { .. } => verdict.to_string().split(' ').nth(1).unwrap_or("").into(),
        Verdict::No {
            number, divergence, ..
        } => match divergence {
            0 => format!("{number}"),
            _ => format!("{number}/{divergence}"),
        },
    }
}

/// Changes some bits or bytes, the length, or the whole file.
fn change_bytes(random: &mut Random, file: &mut Vec<u8>) {
    let at = random.below(file.len() as u64) as usize;
    match random.below(7) {
        0 => file.truncate(at),
        1 => file.push(random.next() as u8),
        2 => file.clear(),
        3 => file.resize(MOST_BYTES + 1, 0),
        4 => *file = samples::worked(random.pick(&crate::reader::FORMATS)),
        5 => file[at] = random.next() as u8,
        _ => file[at] ^= 1 << random.below(8),
    }
}
