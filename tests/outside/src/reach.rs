//! What random calls reached: every refusal that a call can give, every verdict, move and restoration. A test that no longer
//! reaches one of them has gone blind, and fails.

use reference::{
    answer, call_of, figures, quotient, sample, Answer, Call, Entry, Figures, Frame, Plan, Recording, Station, CONTINUOUS, CREDIT,
    FULL, LARGEST_CEILING, LEVEL,
};
use std::collections::BTreeMap;

/// Paper 01, Calls, and paper 02, cards 1 and 3: what each call can be refused for on a store of the right length whose areas are sound;
/// 0 is acceptance.
const REFUSALS: [(u32, &[u32]); 9] = [
    (1, &[0, 2, 4, 5]),
    (2, &[0, 2, 6, 7, 8, 9, 10, 11, 12, 13, 17]),
    (3, &[0, 2, 6, 7, 9, 14, 15, 17]),
    (4, &[0, 2, 6, 7, 9, 14, 15, 17]),
    (5, &[0, 2, 6, 8, 9, 15]),
    (6, &[0, 2, 6, 16]),
    (7, &[0, 2, 6, 7, 8, 11]),
    (8, &[0, 2, 6]),
    (9, &[0, 2, 6]),
];

/// What an accepted call, or a refusal that depends on more than one state, can meet.
const STATES: [&str; 102] = [
    "credit: accepted",
    "credit: all heard, no credit before",
    "credit: all heard by option 1, credit lost",
    "credit: returned",
    "credit: stop",
    "reduced: accepted",
    "reduced: withheld, to normal",
    "reduced: why 2, to normal",
    "reduced: long stop, to normal",
    "reduced: short stop",
    "normal: accepted",
    "normal: row above ten without option 1",
    "normal: ten in a row, to reduced",
    "normal: withheld",
    "normal: two withheld, to tightened",
    "normal: to tightened, one of the two judged on reduced",
    "normal: stop",
    "tightened: accepted",
    "tightened: five in a row, to normal",
    "tightened: the tenth lot is the fifth in a row, to normal",
    "tightened: withheld",
    "tightened: ten lots, discontinued by an accepted one",
    "tightened: ten lots, discontinued by a withheld one",
    "tightened: stop",
    "screening: c grows",
    "screening: cleared",
    "screening: wrong, c lost",
    "screening: why 2, c lost",
    "screening: long stop, c stays",
    "sampling: right",
    "sampling: wrong, nothing of the block before",
    "sampling: wrong, with u to hear back",
    "sampling: why 2, to screening",
    "sampling: long stop, to screening",
    "sampling: short stop, u stays",
    "back: a lot",
    "back: a run",
    "back: a block",
    "back: a stop",
    "back: the last",
    "back: credit restored",
    "back: out of discontinued",
    "back: into reduced",
    "back: into tightened",
    "back: c restored",
    "back: into sampling, u restored",
    "full: credit",
    "full: level",
    "full: continuous",
    "full: taken back",
    "full and discontinued: lot refused by 8",
    "full and discontinued: stop refused by 8",
    "label: the newest lot's, refused over a stop",
    "label: an older lot's, accepted",
    "read: reduced",
    "read: discontinued",
    "read: screening, c above 0",
    "read: sampling, u above 0",
    "recording 0: lot refused by 13",
    "recording 0: run refused by 14",
    "recording 0: block refused by 14",
    "recording 0: second above 0, refused by 17",
    "recording: lot from second 0",
    "recording: run from second 0",
    "recording: block from second 0",
    "recording: lot with the largest number",
    "recording: run with the largest number",
    "recording: block with the largest number",
    "recording: the largest second",
    "newest: cut by the count, credit",
    "newest: cut by the count, level",
    "newest: cut by the count, continuous",
    "newest: cut by the count, full",
    "newest: cut by the count, a stop in the part",
    "newest: as many as stand",
    "newest: fewer stand than the count",
    "newest: the largest count",
    "newest: count 0",
    "newest: none stands",
    "newest: all 128",
    "newest: discontinued",
    "newest: sampling",
    "ceiling: opened",
    "ceiling: opened, the largest",
    "ceiling: refused by 5, credit",
    "ceiling: refused by 5, level",
    "ceiling: refused by 5, continuous",
    "ceiling: refused by 4, which comes before 5",
    "ceiling: above the credit, the sample the same",
    "ceiling: a larger sample, asked",
    "ceiling: a larger sample, accepted",
    "ceiling: a larger sample, all heard",
    "ceiling: a larger sample, returned",
    "ceiling: the sample without it, refused by 12",
    "ceiling: passed by the credit",
    "rounding: a whole quotient, asked",
    "rounding: a whole quotient, entered",
    "rounding: a remainder below half, asked",
    "rounding: a remainder below half, entered",
    "rounding: a remainder of half or more, asked",
    "rounding: a remainder of half or more, entered",
    "rounding: a whole quotient, with credit",
];

pub struct Reach {
    refusals: BTreeMap<(u32, u32), u64>,
    states: BTreeMap<&'static str, u64>,
}

impl Reach {
    pub fn new() -> Self {
        Reach {
            refusals: BTreeMap::new(),
            states: STATES.map(|state| (state, 0)).into(),
        }
    }

    /// A call's refusal number, 0 where it was accepted.
    pub fn see_refusal(&mut self, frame: &Frame, refusal: u32) {
        *self.refusals.entry((frame.call, refusal)).or_default() += 1;
    }

    /// A call that was made, its answer, the station before and after it.
    pub fn see(&mut self, frame: &Frame, answer: &Answer, before: &Station, after: &Station) {
        self.see_refusal(frame, answer[0]);
        let call = call_of(frame).expect("a call");
        if let Call::Open(plan) = call {
            self.count(opened(&plan, answer[0]));
        }
        let Some(plan) = before.plan else {
            return;
        };
        let seen = Seen {
            plan: &plan,
            entries: &before.entries,
            was: figures(&plan, &before.entries),
            is: figures(&plan, &after.entries),
            left: after.entries.len(),
        };
        self.count(seen.states(&call, answer));
        if plan.ceiling > 0 {
            self.count(seen.under_ceiling(&call, answer));
        }
        if plan.kind == CREDIT {
            self.count(seen.rounded(&call, answer));
        }
    }

    fn count(&mut self, states: impl IntoIterator<Item = &'static str>) {
        for state in states {
            *self.states.get_mut(state).expect("a listed state") += 1;
        }
    }

    /// Fails where something that can be reached was not, or something that cannot was.
    pub fn complete(&self) -> Result<(), String> {
        for (call, refusals) in REFUSALS {
            for refusal in refusals {
                if !self.refusals.contains_key(&(call, *refusal)) {
                    return Err(format!("call {call} never gave refusal {refusal}"));
                }
            }
        }
        for (call, refusal) in self.refusals.keys() {
            if !REFUSALS[*call as usize - 1].1.contains(refusal) {
                return Err(format!("call {call} gave refusal {refusal}, which it does not have"));
            }
        }
        for (state, count) in &self.states {
            if *count == 0 {
                return Err(format!("never reached: {state}"));
            }
        }
        Ok(())
    }

    /// How much was reached, in a line.
    pub fn summary(&self) -> String {
        let pairs: usize = REFUSALS.iter().map(|(_, refusals)| refusals.len()).sum();
        let (state, count) = self.states.iter().min_by_key(|(_, count)| **count).expect("states");
        format!(
            "all {pairs} pairs of call and refusal and all {} states reached, the rarest ({state}) {count} times",
            STATES.len()
        )
    }

    /// How often each call gave each refusal, and each state was reached.
    pub fn table(&self) -> String {
        let mut table = "reached, by call, refusal:times".to_string();
        for (call, refusals) in REFUSALS {
            let counts: Vec<String> = refusals
                .iter()
                .map(|refusal| format!("{refusal}:{}", self.refusals[&(call, *refusal)]))
                .collect();
            table.push_str(&format!("\n    call {call}  {}", counts.join("  ")));
        }
        for state in STATES {
            table.push_str(&format!("\n    {} {state}", self.states[state]));
        }
        table
    }
}

/// A call on an opened stream, with the figures before and after it.
struct Seen<'a> {
    plan: &'a Plan,
    entries: &'a [Entry],
    was: Figures,
    is: Figures,
    /// So many entries stand after it.
    left: usize,
}

impl Seen<'_> {
    fn states(&self, call: &Call, answer: &Answer) -> Vec<&'static str> {
        let accepted = answer[0] == 0;
        let mut states = Vec::new();
        if let Call::Lot { recording, .. } | Call::Run { recording, .. } | Call::Block { recording, .. } = call {
            states.extend(recorded(call, recording, answer[0]));
        }
        match call {
            Call::Lot { label, .. } if accepted => {
                states.extend(self.lot(answer[1]));
                if self.older_label(*label) {
                    states.push("label: an older lot's, accepted");
                }
            }
            Call::Lot { .. } => states.extend(self.refused_lot(answer[0])),
            Call::Run { w, .. } if accepted => states.extend(self.run(*w)),
            Call::Block { w, .. } if accepted => states.push(self.block(*w)),
            Call::Stop { why, days } if accepted => states.extend(self.stop(*why, *days)),
            Call::Stop { .. } if self.entries.len() == FULL && answer[0] == 8 => {
                states.push("full and discontinued: stop refused by 8")
            }
            Call::Back if accepted => states.extend(self.back(answer[1])),
            Call::Read => states.extend(self.read()),
            Call::Newest { count } => states.extend(self.newest(*count as usize)),
            _ => {}
        }
        if self.left == FULL && self.entries.len() < FULL {
            states.push(["full: credit", "full: level", "full: continuous"][self.plan.kind as usize - 1]);
        }
        states
    }

    /// What an Ask or a lot met on a credit stream with a ceiling: document 004, clause 10, note 1.
    fn under_ceiling(&self, call: &Call, answer: &Answer) -> Option<&'static str> {
        let without = |size: u32| {
            let plan = Plan {
                ceiling: 0,
                ..*self.plan
            };
            sample(&plan, &self.was, size)
        };
        match (*call, *answer) {
            (Call::Ask { size }, [0, n, ..]) if n > without(size) => Some("ceiling: a larger sample, asked"),
            (Call::Lot { size, n, .. }, [0, verdict, ..]) if n > without(size) => Some(
                [
                    "ceiling: a larger sample, accepted",
                    "ceiling: a larger sample, all heard",
                    "ceiling: a larger sample, returned",
                ][verdict as usize - 1],
            ),
            (Call::Lot { size, n, .. }, [12, ..]) if n == without(size) => Some("ceiling: the sample without it, refused by 12"),
            (Call::Ask { .. }, [0, ..]) if self.was.credit > 0 && self.was.credit < self.plan.ceiling => {
                Some("ceiling: above the credit, the sample the same")
            }
            (Call::Lot { .. }, [0, ..]) if self.was.credit <= self.plan.ceiling && self.is.credit > self.plan.ceiling => {
                Some("ceiling: passed by the credit")
            }
            _ => None,
        }
    }

    /// What was rounded up for an Ask or a lot on a credit stream: paper 02, card 4.
    fn rounded(&self, call: &Call, answer: &Answer) -> Vec<&'static str> {
        let (size, [whole, below_half, from_half]) = match (*call, *answer) {
            (Call::Ask { size }, [0, ..]) => (
                size,
                [
                    "rounding: a whole quotient, asked",
                    "rounding: a remainder below half, asked",
                    "rounding: a remainder of half or more, asked",
                ],
            ),
            (Call::Lot { size, .. }, [0, ..]) => (
                size,
                [
                    "rounding: a whole quotient, entered",
                    "rounding: a remainder below half, entered",
                    "rounding: a remainder of half or more, entered",
                ],
            ),
            _ => return Vec::new(),
        };
        let [top, bottom] = quotient(self.plan, &self.was, size);
        match top % bottom {
            0 if self.was.credit > 0 => vec![whole, "rounding: a whole quotient, with credit"],
            0 => vec![whole],
            remainder if 2 * remainder < bottom => vec![below_half],
            _ => vec![from_half],
        }
    }

    fn lot(&self, verdict: u32) -> Vec<&'static str> {
        match (self.plan.kind, verdict) {
            (CREDIT, 1) => vec!["credit: accepted"],
            (CREDIT, 2) if self.was.credit == 0 => vec!["credit: all heard, no credit before"],
            (CREDIT, 2) => vec!["credit: all heard by option 1, credit lost"],
            (CREDIT, _) => vec!["credit: returned"],
            (_, 1) => self.accepted_at_level(),
            _ => self.withheld_at_level(),
        }
    }

    fn accepted_at_level(&self) -> Vec<&'static str> {
        match (self.was.level, self.is.level) {
            (0, _) => vec!["reduced: accepted"],
            (1, 0) => vec!["normal: ten in a row, to reduced"],
            (1, _) if self.is.row > 10 => vec!["normal: row above ten without option 1"],
            (1, _) => vec!["normal: accepted"],
            (2, 1) if self.was.tightened == 9 => vec!["tightened: the tenth lot is the fifth in a row, to normal"],
            (2, 1) => vec!["tightened: five in a row, to normal"],
            (2, 3) => vec!["tightened: ten lots, discontinued by an accepted one"],
            _ => vec!["tightened: accepted"],
        }
    }

    fn withheld_at_level(&self) -> Vec<&'static str> {
        match (self.was.level, self.is.level) {
            (0, _) => vec!["reduced: withheld, to normal"],
            (1, 2) if self.withheld_on_reduced() => vec!["normal: to tightened, one of the two judged on reduced"],
            (1, 2) => vec!["normal: two withheld, to tightened"],
            (1, _) => vec!["normal: withheld"],
            (2, 3) => vec!["tightened: ten lots, discontinued by a withheld one"],
            _ => vec!["tightened: withheld"],
        }
    }

    /// Whether the newest withheld lot, the one that still counts on normal, was judged on reduced.
    fn withheld_on_reduced(&self) -> bool {
        let withheld = |entry: &Entry| matches!(entry, Entry::Lot { d, .. } if *d > 0);
        let place = self.entries.iter().rposition(withheld);
        place.is_some_and(|place| figures(self.plan, &self.entries[..place]).level == 0)
    }

    fn refused_lot(&self, refusal: u32) -> Option<&'static str> {
        match (refusal, self.entries.last()) {
            (8, _) if self.entries.len() == FULL => Some("full and discontinued: lot refused by 8"),
            (10, Some(Entry::Stop { .. })) => Some("label: the newest lot's, refused over a stop"),
            _ => None,
        }
    }

    fn older_label(&self, new: u32) -> bool {
        self.entries
            .iter()
            .any(|entry| matches!(entry, Entry::Lot { label, .. } if *label == new))
    }

    fn run(&self, w: u32) -> Option<&'static str> {
        match (w, self.is.phase) {
            (1, _) if self.was.c > 0 => Some("screening: wrong, c lost"),
            (1, _) => None,
            (_, 1) => Some("screening: cleared"),
            _ => Some("screening: c grows"),
        }
    }

    fn block(&self, w: u32) -> &'static str {
        match (w, self.was.u) {
            (0, _) => "sampling: right",
            (_, 0) => "sampling: wrong, nothing of the block before",
            _ => "sampling: wrong, with u to hear back",
        }
    }

    fn stop(&self, why: u32, days: u32) -> Option<&'static str> {
        match (self.plan.kind, why, days > 3) {
            (CREDIT, ..) => Some("credit: stop"),
            (LEVEL, ..) if self.was.level == 1 => Some("normal: stop"),
            (LEVEL, ..) if self.was.level == 2 => Some("tightened: stop"),
            (LEVEL, 2, _) => Some("reduced: why 2, to normal"),
            (LEVEL, _, true) => Some("reduced: long stop, to normal"),
            (LEVEL, ..) => Some("reduced: short stop"),
            (_, 2, _) if self.was.phase == 1 => Some("sampling: why 2, to screening"),
            (_, _, true) if self.was.phase == 1 => Some("sampling: long stop, to screening"),
            (_, _, false) if self.was.u > 0 => Some("sampling: short stop, u stays"),
            (_, 2, _) if self.was.c > 0 => Some("screening: why 2, c lost"),
            (_, _, true) if self.was.c > 0 => Some("screening: long stop, c stays"),
            _ => None,
        }
    }

    fn back(&self, kind: u32) -> Vec<&'static str> {
        let (was, is) = (&self.was, &self.is);
        let mut states = vec![["back: a lot", "back: a run", "back: a block", "back: a stop"][kind as usize - 1]];
        let restored = [
            (self.left == 0, "back: the last"),
            (self.entries.len() == FULL, "full: taken back"),
            (is.credit > was.credit, "back: credit restored"),
            (was.level == 3, "back: out of discontinued"),
            (
                self.plan.kind == LEVEL && is.level == 0 && was.level == 1,
                "back: into reduced",
            ),
            (is.level == 2 && was.level != 2, "back: into tightened"),
            (is.c > was.c && was.phase == 0, "back: c restored"),
            (is.phase == 1 && was.phase == 0 && is.u > 0, "back: into sampling, u restored"),
        ];
        states.extend(restored.into_iter().filter(|(is, _)| *is).map(|(_, state)| state));
        states
    }

    fn read(&self) -> Option<&'static str> {
        match (self.plan.kind, self.was.level) {
            (LEVEL, 0) => Some("read: reduced"),
            (LEVEL, 3) => Some("read: discontinued"),
            (CONTINUOUS, _) if self.was.c > 0 => Some("read: screening, c above 0"),
            (CONTINUOUS, _) if self.was.u > 0 => Some("read: sampling, u above 0"),
            _ => None,
        }
    }

    fn newest(&self, count: usize) -> Vec<&'static str> {
        let stand = self.entries.len();
        let cut = count > 0 && count < stand;
        let stop_in_part = || {
            let part = &self.entries[stand - count..];
            part.iter().any(|entry| matches!(entry, Entry::Stop { .. }))
        };
        let met = [
            (cut && self.plan.kind == CREDIT, "newest: cut by the count, credit"),
            (cut && self.plan.kind == LEVEL, "newest: cut by the count, level"),
            (cut && self.plan.kind == CONTINUOUS, "newest: cut by the count, continuous"),
            (cut && stand == FULL, "newest: cut by the count, full"),
            (cut && stop_in_part(), "newest: cut by the count, a stop in the part"),
            (count > 0 && count == stand, "newest: as many as stand"),
            (count > stand && stand > 0, "newest: fewer stand than the count"),
            (count == u32::MAX as usize && stand > 0, "newest: the largest count"),
            (count == 0 && stand > 0, "newest: count 0"),
            (count > 0 && stand == 0, "newest: none stands"),
            (count >= FULL && stand == FULL, "newest: all 128"),
            (self.was.level == 3, "newest: discontinued"),
            (self.was.phase == 1, "newest: sampling"),
        ];
        met.into_iter().filter(|(is, _)| *is).map(|(_, state)| state).collect()
    }
}

/// What the ceiling of an Open led to, by its refusal; of a refused one only where 5 applies for the ceiling alone.
fn opened(plan: &Plan, refusal: u32) -> Option<&'static str> {
    let is_refused = |ceiling| answer(&mut Station::default(), Call::Open(Plan { ceiling, ..*plan }))[0] != 0;
    match (refusal, plan.ceiling) {
        (_, 0) => None,
        (0, LARGEST_CEILING) => Some("ceiling: opened, the largest"),
        (0, _) => Some("ceiling: opened"),
        (_, ceiling) if is_refused(0) || !is_refused(ceiling) => None,
        (4, _) => Some("ceiling: refused by 4, which comes before 5"),
        _ => Some(
            [
                "ceiling: refused by 5, credit",
                "ceiling: refused by 5, level",
                "ceiling: refused by 5, continuous",
            ][plan.kind as usize - 1],
        ),
    }
}

/// What the recording of a lot, run or block was, by its refusal: 17 is the last of each list.
fn recorded(call: &Call, recording: &Recording, refusal: u32) -> Vec<&'static str> {
    let of = |[lot, run, block]: [&'static str; 3]| match call {
        Call::Lot { .. } => lot,
        Call::Run { .. } => run,
        _ => block,
    };
    let Recording { number, second } = *recording;
    let mut states = Vec::new();
    match refusal {
        13 | 14 if number == 0 => states.push(of([
            "recording 0: lot refused by 13",
            "recording 0: run refused by 14",
            "recording 0: block refused by 14",
        ])),
        17 if second > 0 => states.push("recording 0: second above 0, refused by 17"),
        0 if second == 0 => states.push(of([
            "recording: lot from second 0",
            "recording: run from second 0",
            "recording: block from second 0",
        ])),
        0 if second == u32::MAX => states.push("recording: the largest second"),
        _ => {}
    }
    if refusal == 0 && number == u32::MAX {
        states.push(of([
            "recording: lot with the largest number",
            "recording: run with the largest number",
            "recording: block with the largest number",
        ]));
    }
    states
}
