//! Call lines from a seed. The monitor runs beside as a model, so that the
//! lines can aim: most calls are granted, and the states get deep.

mod access;
mod accounts;
mod bans;
mod boot;
mod boot_accounts;
mod ends;
mod finding;
mod ghost;
mod judging;
mod kinds;
mod line;
mod objects;
mod order;
mod pairs;
mod passwords;
mod plans;
mod procedures;
mod registrations;
mod slots;
mod stray;
mod values;
mod whole_lock;
mod zero_pairs;

pub use kinds::{edges, kind, Kind};
pub use line::{Line, AMPLE};

use crate::damage::{damage, register_line, FORMS};
use crate::lines::{self, MAX_LINE};
use crate::monitor::*;
use crate::random::Random;
use std::collections::VecDeque;

const TOP: u64 = u64::MAX;
const WIDE: u64 = 1 << 32;

/// An object that was deleted.
#[derive(Clone, Copy)]
struct Grave {
    base: u64,
    pages: u64,
    password: u64,
}

pub struct Generator {
    random: Random,
    model: Monitor,
    queue: VecDeque<Line>,
    graves: Vec<Grave>,
    /// Passwords that come again and again between two boots.
    pool: Vec<u64>,
    weights: Vec<u64>,
    domains: Vec<usize>,
    booted: bool,
    /// Lines until the next boot.
    left: u64,
    /// Which of the last planned calls were done, newest in bit 0.
    recent: u64,
    form: usize,
}

impl Generator {
    pub fn new(seed: u64) -> Self {
        let mut random = Random::new(seed);
        let left = if random.percent(50) {
            random.below(60)
        } else {
            0
        };
        let form = random.index(FORMS.len());
        let mut generator = Generator {
            random,
            model: Monitor::new(),
            queue: VecDeque::new(),
            graves: Vec::new(),
            pool: Vec::new(),
            weights: Vec::new(),
            domains: vec![0, 1, 2, 3],
            booted: false,
            left,
            recent: TOP,
            form,
        };
        generator.mood();
        generator
    }

    /// The next line, without its line feed.
    pub fn next_line(&mut self) -> Vec<u8> {
        let stuck = self.booted && (self.recent & ((1 << 48) - 1)).count_ones() < 8;
        if self.left == 0 || stuck {
            return self.boot();
        }
        self.left -= 1;
        let planned = !self.random.percent(8);
        let mut line = if planned {
            self.planned_line()
        } else {
            self.stray_line()
        };
        if self.random.percent(4) {
            self.distort(&mut line);
        }
        if self.random.percent(1) {
            self.misdirect(&mut line);
        }
        let bytes = self.written(&line);
        let done = self.play(&bytes);
        if planned {
            self.recent = self.recent << 1 | u64::from(done);
        }
        bytes
    }

    /// The line as bytes; now and then unreadable, or one of about 200 bytes.
    fn written(&mut self, line: &Line) -> Vec<u8> {
        if self.random.percent(3) {
            let form = FORMS[self.form];
            self.form = (self.form + 1) % FORMS.len();
            damage(line, form, &mut self.random)
        } else if self.random.below(500) == 0 {
            register_line(MAX_LINE - self.random.index(4))
        } else {
            line.bytes()
        }
    }

    /// Let the model answer the line; true when it is done.
    fn play(&mut self, bytes: &[u8]) -> bool {
        let Some((domain, call)) = lines::read(bytes) else {
            return false;
        };
        let grave = match call {
            Call::Dl { base } => self.grave(base),
            _ => None,
        };
        let done = self.model.call(domain, &call).is_ok();
        if done {
            // A whole lock outside a call lasts until the next boot.
            let lasting = matches!(call, Call::Lo { slot: WHOLE })
                && self.model.domains[domain as usize].saved.is_empty();
            if lasting {
                self.left = self.left.min(150);
            }
            self.graves.extend(grave);
            if self.graves.len() > 12 {
                self.graves.remove(0);
            }
        }
        done
    }

    /// What is kept of the object, should it be deleted.
    fn grave(&self, base: u64) -> Option<Grave> {
        let object = &self.model.objects[self.model.index_of_base(base)?];
        Some(Grave {
            base,
            pages: object.pages,
            password: object.passwords.first().map_or(1, |p| p.word),
        })
    }
}
