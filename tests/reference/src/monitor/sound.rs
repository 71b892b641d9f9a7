//! The bounds that a sound state keeps.

use super::*;

impl Monitor {
    /// The bounds of a sound state. The calls keep them; tests ask.
    pub fn is_sound(&self) -> bool {
        self.store.len() as u64 == WORDS
            && (0..DOMAINS).all(|d| self.objects_in(d) <= MAX_OBJECTS)
            && self.objects.iter().all(sound_object)
            && self.objects.iter().enumerate().all(|(i, a)| {
                self.objects[i + 1..]
                    .iter()
                    .all(|b| a.run().end <= b.run().start || b.run().end <= a.run().start)
            })
            && self.limits.iter().all(|&limit| limit <= MAX_LIMIT)
            && self.sets.iter().all(|&set| set <= MAX_SET)
            && self.domains.iter().all(|domain| {
                sound_frame(&domain.now)
                    && domain.saved.len() <= MAX_SAVED
                    && domain.saved.iter().all(sound_frame)
            })
    }
}

fn sound_object(object: &Object) -> bool {
    let words = object.all_passwords();
    let different = words
        .iter()
        .enumerate()
        .all(|(i, p)| !words[i + 1..].contains(p));
    let registration = object.registration.as_ref().is_none_or(|r| {
        r.list.page < PAGES
            && (1..=MAX_ENTRIES).contains(&r.entries.len())
            && r.entries.iter().all(|e| object.words().contains(e))
    });
    object.base < PAGES
        && (1..=ESTATE_PAGES).contains(&object.pages)
        && object.base / ESTATE_PAGES == (object.base + object.pages - 1) / ESTATE_PAGES
        && object.passwords.len() <= MAX_PASSWORDS
        && object.passwords.iter().all(|p| legal_mode(p.mode))
        && object.account < ACCOUNTS as u64
        && words.iter().all(|&p| p != 0)
        && different
        && registration
}

fn sound_frame(frame: &Frame) -> bool {
    frame.slots.len() <= MAX_SLOTS
        && frame.locked <= frame.slots.len()
        && frame.slots.iter().all(|s| s.page < PAGES)
}
