//! Judging in parts, of which a broken monitor changes one.

use super::*;

/// A pair that grants or denies: its slot, its address, and the mode by which
/// it does.
#[derive(Clone, Copy)]
pub struct Verdict {
    pub slot: usize,
    pub at: u64,
    pub mode: u64,
}

impl Verdict {
    pub fn grants(&self) -> bool {
        self.mode & NOT == 0
    }

    pub fn denies(&self) -> bool {
        !self.grants()
    }
}

/// A way of judging.
#[derive(Clone, Copy)]
pub struct Judge {
    /// Whether a slot is live, by the mode of its password, if it has one.
    pub live: fn(Option<u64>) -> bool,
    /// The addresses of a Clist's pairs.
    pub pairs: fn(&Monitor, &Object) -> Vec<u64>,
    /// The mode of a pair for an object, by the pair's words.
    pub mode: fn(&Object, u64, u64) -> Option<u64>,
    /// Whether a mode denies the wanted rights.
    pub denies: fn(u64, u64) -> bool,
    /// The pair that is given, by the verdicts in searching order and the wanted
    /// rights.
    pub given: fn(&[Verdict], u64) -> Option<u64>,
}

/// The way that is right; a broken one differs from it.
pub const RIGHT: Judge = Judge {
    live: is_live,
    pairs: |m, list| m.list_pairs(list).collect(),
    mode: true_mode,
    denies: mode_denies,
    given: |verdicts, _| {
        let granted = verdicts.iter().all(Verdict::grants);
        verdicts.first().filter(|_| granted).map(|first| first.at)
    },
};

impl Judge {
    /// The pairs that grant or deny, in searching order.
    pub fn verdicts(self, m: &Monitor, d: u64, object: &Object, wanted: u64) -> Vec<Verdict> {
        let mut verdicts = Vec::new();
        for (slot, capability) in m.domains[d as usize].now.slots.iter().enumerate() {
            let index = m.index_of_base(capability.page);
            let list = index.map(|index| &m.objects[index]);
            let Some(list) = list.filter(|list| (self.live)(list.mode(capability.password))) else {
                continue;
            };
            for at in (self.pairs)(m, list) {
                let mode = (self.mode)(object, m.word(at), m.word(at + 1));
                let decides =
                    |&mode: &u64| mode_grants(mode, wanted) || (self.denies)(mode, wanted);
                verdicts.extend(mode.filter(decides).map(|mode| Verdict { slot, at, mode }));
            }
        }
        verdicts
    }

    pub fn judge(self, m: &Monitor, d: u64, address: u64, wanted: u64) -> Outcome {
        let index = m.index_at(address).ok_or(Refusal::NotGranted)?;
        let verdicts = self.verdicts(m, d, &m.objects[index], wanted);
        let given = (self.given)(&verdicts, wanted);
        given.map(Done::Value).ok_or(Refusal::NotGranted)
    }

    /// LK in this way, the other calls as they should be.
    pub fn look(self, m: &mut Monitor, d: u64, c: &Call) -> Outcome {
        match looks(d, c) {
            Some((at, rights)) => self.judge(m, d, at, rights),
            None => m.call(d, c),
        }
    }

    /// LK as it should be, but refused where it is refused in this way; the other
    /// calls as they should be.
    pub fn look_less(self, m: &mut Monitor, d: u64, c: &Call) -> Outcome {
        if let Some((at, rights)) = looks(d, c) {
            self.judge(m, d, at, rights)?;
        }
        m.call(d, c)
    }
}

/// Whether a slot is live, as it should be.
pub fn is_live(mode: Option<u64>) -> bool {
    mode.is_some_and(|mode| mode_grants(mode, R))
}

/// The mode as it should be.
pub fn true_mode(object: &Object, word: u64, password: u64) -> Option<u64> {
    if word / 256 == object.base {
        object.mode(password)
    } else {
        None
    }
}

/// An LK that is in range.
pub fn looks(domain: u64, call: &Call) -> Option<(u64, u64)> {
    match *call {
        Call::Lk { address, rights } => {
            (domain < 4 && address < WORDS && (1..32).contains(&rights))
                .then_some((address, rights))
        }
        _ => None,
    }
}
