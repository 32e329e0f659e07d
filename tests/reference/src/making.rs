//! Calls made at random that reach deep states. The caller stays with a stream for a while, in a mood: how many lots are wrong, how
//! often it takes back, stops, or errs. It knows the stations by the reference, so that it can ask for the sample a lot needs, end
//! a screening just at its clearance number, or withhold just the lots that bring a stream to discontinued as it gets full.

use crate::area::{area_at, area_bytes, STREAMS};
use crate::arguments::{
    any_plan_args, asked_size, bad_plan_args, block_args, lot_args, newest_args, plain_frame, plan_args, run_args, stop_args,
    stray_lot_args, stray_run_args, Args, Mood,
};
use crate::calls::{answer, call_of, Answer, Frame, ARGUMENTS, ASK, BACK, BLOCK, LOT, NEWEST, OPEN, READ, RUN, STOP};
use crate::random::Random;
use crate::station::{figures, Figures, Plan, Station, CONTINUOUS, FULL, LEVEL};

pub struct Caller {
    pub random: Random,
    stations: Vec<Station>,
    moods: Vec<Mood>,
    /// The stream that most calls go to, for so many calls more, of which the next are so many take-backs.
    focus: usize,
    focus_left: usize,
    backs_left: usize,
    /// The plan that each stream will be opened with, and after how many calls.
    kinds: Vec<u32>,
    open_after: Vec<usize>,
    made: usize,
    highest_stream: u32,
}

impl Caller {
    /// A caller for a fresh store and about so many calls. Streams above 15 go up to the highest: 255 is the last that a frame of
    /// text can hold.
    pub fn new(seed: u64, calls: usize, highest_stream: u32) -> Self {
        let mut random = Random::new(seed);
        let shift = (seed % 3) as u32;
        Caller {
            stations: vec![Station::default(); STREAMS as usize],
            moods: (0..STREAMS).map(|_| Mood::new(&mut random)).collect(),
            focus: 0,
            focus_left: 0,
            backs_left: 0,
            // five of each kind, and one more
            kinds: (0..STREAMS).map(|s| 1 + (s + shift) % 3).collect(),
            open_after: (0..STREAMS)
                .map(|_| random.pick(&[0, 0, 0, 20, 200]).min(calls / 4))
                .collect(),
            made: 0,
            highest_stream,
            random,
        }
    }

    /// The station of a stream; none above 15.
    pub fn station(&self, stream: u32) -> Option<&Station> {
        self.stations.get(stream as usize)
    }

    /// Makes the call on the stations, and gives the reference's answer.
    pub fn make(&mut self, frame: &Frame) -> Answer {
        match self.stations.get_mut(frame.stream as usize) {
            None => [2, 0, 0, 0],
            Some(station) => answer(station, call_of(frame).expect("a call")),
        }
    }

    /// Writes the stream's area, as the reference has it, into a store.
    pub fn write_area(&self, store: &mut [u8], stream: u32) {
        if let Some(station) = self.station(stream) {
            store[area_at(stream)].copy_from_slice(&area_bytes(station));
        }
    }

    /// A next call; nothing is made yet.
    pub fn next_call(&mut self) -> Frame {
        self.made += 1;
        if self.random.chance(1, 200) {
            return self.wrong_stream();
        }
        if self.focus_left == 0 {
            self.turn_to_another();
        }
        self.focus_left -= 1;
        let s = if self.random.chance(1, 10) {
            self.random.below(STREAMS as usize)
        } else {
            self.focus
        };
        if self.random.chance(1, 150) {
            self.moods[s] = Mood::new(&mut self.random);
        }
        self.call_on(s as u32)
    }

    /// A next call on this stream, as the caller's mood is.
    pub fn call_on(&mut self, stream: u32) -> Frame {
        let s = stream as usize;
        let (call, args) = match self.stations[s].plan {
            None => self.on_unopened(s),
            Some(plan) => self.on_opened(s, &plan),
        };
        Frame { call, stream, args }
    }

    fn turn_to_another(&mut self) {
        self.focus = self.random.below(STREAMS as usize);
        self.focus_left = self.random.pick(&[1, 5, 20, 60, 200, 400]);
        self.backs_left = 0;
        self.moods[self.focus] = Mood::new(&mut self.random);
    }

    fn wrong_stream(&mut self) -> Frame {
        let streams = [16, 17, 31, 128, 254, 255, 256, 257, 65_536, 1 << 31, u32::MAX];
        let stream = self.random.pick(&streams).min(self.highest_stream);
        match self.random.range(OPEN, NEWEST) {
            OPEN => Frame {
                call: OPEN,
                stream,
                args: any_plan_args(&mut self.random),
            },
            call => plain_frame(call, stream),
        }
    }

    fn on_unopened(&mut self, s: usize) -> (u32, Args) {
        let random = &mut self.random;
        if self.made >= self.open_after[s] && random.chance(1, 4) {
            let mut args = plan_args(random, self.kinds[s]);
            // of the streams of one kind every other one has no ceiling, so that a list has credit streams of both sorts
            if (s / 3).is_multiple_of(2) {
                args[4] = 0;
            }
            return (OPEN, args);
        }
        if random.chance(2, 3) {
            return (OPEN, bad_plan_args(random));
        }
        let call = random.range(LOT, NEWEST);
        (call, plain_frame(call, s as u32).args)
    }

    fn on_opened(&mut self, s: usize, plan: &Plan) -> (u32, Args) {
        let now = figures(plan, &self.stations[s].entries);
        if self.takes_back(s, plan, &now) {
            return (BACK, [0; ARGUMENTS]);
        }
        if self.is_doomed(s, plan, &now) {
            let mood = Mood {
                wrong: 1000,
                err: 0,
                ..self.moods[s]
            };
            return (LOT, lot_args(&mut self.random, plan, &self.stations[s], &now, &mood));
        }
        if let Some(other) = self.looks_or_strays(s, plan) {
            return other;
        }
        self.enters(s, plan, &now)
    }

    /// Bursts of take-backs, at times all there is; out of a full or a discontinued stream; and single ones.
    fn takes_back(&mut self, s: usize, plan: &Plan, now: &Figures) -> bool {
        let random = &mut self.random;
        let in_focus = s == self.focus;
        if in_focus && self.backs_left > 0 {
            self.backs_left -= 1;
            return true;
        }
        if in_focus && random.chance(1, 250) {
            self.backs_left = random.pick(&[2, 3, 6, 12, 30, 128]);
        }
        let discontinued = plan.kind == LEVEL && now.level == 3;
        let full = self.stations[s].entries.len() == FULL;
        if (discontinued && random.chance(1, 15)) || (full && random.chance(1, 12)) {
            self.moods[s] = Mood::new(random);
            if in_focus {
                self.backs_left = random.pick(&[1, 1, 2, 5, 9, 11, 20, 40, 60, 127, 128, 130]);
            }
            return true;
        }
        let none_stands = self.stations[s].entries.is_empty();
        random.chance(self.moods[s].back, if none_stands { 12_500 } else { 1_250 })
    }

    /// Whether the stream would be full and discontinued at once, were every lot from now on withheld.
    fn is_doomed(&mut self, s: usize, plan: &Plan, now: &Figures) -> bool {
        let to_discontinued = match now.level {
            0 => 12,
            1 if now.window.is_multiple_of(16) => 12,
            1 => 11,
            2 => 10 - now.tightened as usize,
            _ => return false,
        };
        let aims = plan.kind == LEVEL && self.moods[s].doom && self.random.chance(9, 10);
        aims && self.stations[s].entries.len() + to_discontinued == FULL
    }

    /// Open again, Read, Ask, Newest, and calls of any kind, whatever the plan.
    fn looks_or_strays(&mut self, s: usize, plan: &Plan) -> Option<(u32, Args)> {
        let random = &mut self.random;
        if random.chance(1, 300) {
            return Some((
                OPEN,
                if random.chance(1, 2) {
                    any_plan_args(random)
                } else {
                    bad_plan_args(random)
                },
            ));
        }
        if random.chance(1, 10) {
            return Some((READ, [0; ARGUMENTS]));
        }
        if random.chance(1, 10) {
            return Some((ASK, [asked_size(random), 0, 0, 0, 0, 0, 0]));
        }
        if random.chance(1, 12) {
            return Some((NEWEST, newest_args(random, self.stations[s].entries.len())));
        }
        if random.chance(1, 100) {
            let mood = &self.moods[s];
            let interval = if plan.kind == CONTINUOUS { plan.b } else { 50 };
            return Some(match random.range(LOT, STOP) {
                LOT => (LOT, stray_lot_args(random, mood)),
                RUN => (RUN, stray_run_args(random, mood)),
                BLOCK => (BLOCK, block_args(random, interval, mood)),
                _ => (STOP, stop_args(random, mood)),
            });
        }
        None
    }

    fn enters(&mut self, s: usize, plan: &Plan, now: &Figures) -> (u32, Args) {
        let random = &mut self.random;
        let mood = &self.moods[s];
        // stops where they matter: on reduced and on discontinued
        let reduced = plan.kind == LEVEL && now.level == 0 && mood.stop > 0 && random.chance(1, 12);
        let discontinued = plan.kind == LEVEL && now.level == 3 && random.chance(1, 6);
        if reduced || discontinued || random.chance(mood.stop, 1000) {
            return (STOP, stop_args(random, mood));
        }
        if plan.kind != CONTINUOUS {
            return (LOT, lot_args(random, plan, &self.stations[s], now, mood));
        }
        let out_of_phase = random.chance(mood.err, 4000);
        match (now.phase, out_of_phase) {
            (0, false) => (RUN, run_args(random, plan.a - now.c, mood)),
            (_, true) if now.phase == 1 => (RUN, stray_run_args(random, mood)),
            _ => (BLOCK, block_args(random, plan.b, mood)),
        }
    }
}
