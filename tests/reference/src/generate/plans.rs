//! What the domains may set out to do. A plan queues the lines that it takes.

use super::*;

type Plan = fn(&mut Generator, usize);

/// What a domain may set out to do, and how often.
pub(super) const PLANS: [(Plan, u64); 40] = [
    (Generator::access, 30),
    (Generator::look, 10),
    (Generator::share, 8),
    (Generator::create, 6),
    (Generator::delete, 2),
    (Generator::recreate, 2),
    (Generator::add, 6),
    (Generator::drop_one, 3),
    (Generator::register, 4),
    (Generator::insert, 5),
    (Generator::remove, 3),
    (Generator::get, 4),
    (Generator::lock, 1),
    (Generator::enter, 8),
    (Generator::leave, 6),
    (Generator::stray, 6),
    (Generator::dive, 2),
    (Generator::crowd, 1),
    (Generator::fence, 1),
    (Generator::seal, 1),
    (Generator::ban, 4),
    (Generator::ban_behind_end, 2),
    (Generator::ghost, 2),
    (Generator::fill, 1),
    (Generator::brim, 1),
    (Generator::split, 1),
    (Generator::stumble, 2),
    (Generator::strip, 1),
    (Generator::tome, 3),
    (Generator::pair_behind, 3),
    (Generator::early_end, 2),
    (Generator::earlier_pair_behind, 2),
    (Generator::full_list, 1),
    (Generator::try_modes, 1),
    (Generator::meet_limit, 2),
    (Generator::break_rules, 1),
    (Generator::crowd_estate, 1),
    (Generator::give_back, 2),
    (Generator::turn_over, 1),
    (Generator::renew, 1),
];

/// Plans before the first BT. No account can be charged there, so nothing
/// stands that could be named.
const EARLY: [Plan; 5] = [
    Generator::create,
    Generator::lock,
    Generator::get,
    Generator::stray,
    Generator::stray,
];

impl Generator {
    /// A line of a plan; a stray one where no plan has any.
    pub(super) fn planned_line(&mut self) -> Line {
        for _ in 0..30 {
            if self.queue.is_empty() {
                self.plan();
            }
        }
        let line = self.queue.pop_front();
        line.unwrap_or_else(|| self.stray_line())
    }

    fn plan(&mut self) {
        let d = self.random.pick(&self.domains.clone());
        if self.booted {
            let plan = self.random.weighted(&self.weights.clone());
            PLANS[plan].0(self, d);
        } else {
            let plan = self.random.pick(&EARLY);
            plan(self, d);
        }
    }

    pub(super) fn push(&mut self, domain: usize, letters: &'static str, args: &[u64]) {
        self.queue
            .push_back(Line::new(domain as u64, letters, args));
    }
}
