//! Objects made and deleted.

use super::*;

pub(super) const OBJECTS: &[Situation] = &[
    ("CR over words that are not zero", |s| {
        let Call::Cr { page, count, .. } = *s.call else {
            return false;
        };
        s.done()
            && (page * PAGE_WORDS..(page + count) * PAGE_WORDS).any(|at| s.before.word(at) != 0)
    }),
    ("CR makes an old slot live", |s| {
        let Call::Cr { page, password, .. } = *s.call else {
            return false;
        };
        s.done() && some_slot(s.before, page, password)
    }),
    ("CR inside a call", |s| {
        s.done() && s.saved() > 0 && matches!(s.call, Call::Cr { .. })
    }),
    ("CR of the eighth object", |s| {
        s.done()
            && matches!(s.call, Call::Cr { .. })
            && s.d().is_some_and(|d| s.before.objects_in(d) == 7)
    }),
    ("CR of 31 or 32 pages", |s| {
        s.done() && matches!(s.call, Call::Cr { count: 31..=32, .. })
    }),
    ("CR at an estate's last page", |s| {
        s.done() && matches!(s.call, Call::Cr { page, count, .. } if (page + count) % 32 == 0)
    }),
    ("CR in another estate", |s| {
        s.refused(Refusal::Place)
            && matches!(s.call, Call::Cr { page, .. } if page / ESTATE_PAGES != s.domain)
    }),
    ("CR past the end of the estate", |s| {
        s.refused(Refusal::Place)
            && matches!(s.call, Call::Cr { page, count, .. }
                if page / ESTATE_PAGES == s.domain && page % ESTATE_PAGES + count > ESTATE_PAGES)
    }),
    ("CR meets an object while full", |s| {
        s.refused(Refusal::Place) && s.d().is_some_and(|d| s.before.objects_in(d) == 8)
    }),
    ("CR meets an object behind its first page", |s| {
        s.refused(Refusal::Place)
            && matches!(s.call, Call::Cr { page, .. }
                if page / ESTATE_PAGES == s.domain && s.before.index_at(page * 64).is_none())
    }),
    ("DL of a registered object", |s| {
        s.done()
            && matches!(s.call, Call::Dl { .. })
            && s.wanted().is_some_and(|(o, _)| o.registration.is_some())
    }),
    ("DL of a Clist in use", |s| {
        let Call::Dl { base } = *s.call else {
            return false;
        };
        s.done()
            && s.before
                .domains
                .iter()
                .any(|d| d.now.slots.iter().any(|c| c.page == base))
    }),
    ("DL of another domain's object", |s| {
        s.done() && matches!(s.call, Call::Dl { base } if base / ESTATE_PAGES != s.domain)
    }),
];
