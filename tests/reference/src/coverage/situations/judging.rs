//! Which pair decides.

use super::*;

pub(super) const JUDGING: &[Situation] = &[
    ("denied by a negative pair", |s| {
        s.decider().is_some_and(|(_, _, mode)| mode & NOT != 0)
    }),
    ("denied by a part of the wanted rights", |s| {
        let (Some((_, _, mode)), Some(rights)) = (s.decider(), s.judged()) else {
            return false;
        };
        mode & NOT != 0 && mode & rights != rights
    }),
    ("negative pair with other rights passed over", |s| {
        let Some((_, at, _)) = s.granter() else {
            return false;
        };
        s.pairs()
            .iter()
            .take_while(|p| p.1 != at)
            .any(|p| p.2 & NOT != 0)
    }),
    ("granted ahead of a negative pair with other rights", |s| {
        let Some((_, at, _)) = s.granter() else {
            return false;
        };
        s.pairs()
            .iter()
            .skip_while(|p| p.1 != at)
            .any(|p| p.2 & NOT != 0)
    }),
    ("owner's call granted behind negative P", |s| {
        let (Some((_, at, _)), Some(_)) = (s.granter(), s.owned()) else {
            return false;
        };
        s.pairs()
            .iter()
            .take_while(|p| p.1 != at)
            .any(|p| p.2 == NOT | P)
    }),
    ("owner's call granted ahead of negative P", |s| {
        let (Some((_, at, _)), Some(_)) = (s.granter(), s.owned()) else {
            return false;
        };
        s.pairs()
            .iter()
            .skip_while(|p| p.1 != at)
            .any(|p| p.2 == NOT | P)
    }),
    ("two pairs would grant only together", |s| {
        let Some(rights) = s.judged() else {
            return false;
        };
        let pairs = s.pairs();
        let all = pairs.iter().fold(0, |sum, p| sum | p.2);
        !s.done() && s.decider().is_none() && all & NOT == 0 && all & rights == rights
    }),
    ("positive pair with too few rights passed over", |s| {
        let Some((_, at, _)) = s.granter() else {
            return false;
        };
        s.pairs()
            .iter()
            .take_while(|p| p.1 != at)
            .any(|p| p.2 & NOT == 0)
    }),
    ("hint would grant, mode does not", |s| {
        let Some(rights) = s.judged() else {
            return false;
        };
        !s.done()
            && s.decider().is_none()
            && s.pairs()
                .iter()
                .any(|p| s.before.word(p.1) & 255 & rights == rights)
    }),
    ("hint would refuse, mode grants", |s| {
        let (Some((_, at, _)), Some(rights)) = (s.granter(), s.judged()) else {
            return false;
        };
        s.before.word(at) & 255 & rights == 0
    }),
    ("no object at the address", |s| {
        s.refused(Refusal::NotGranted)
            && matches!(s.call, Call::Rd { .. } | Call::Wr { .. } | Call::Ex { .. })
            && s.wanted().is_none()
    }),
    ("no object at CA's address", |s| {
        s.refused(Refusal::NotGranted) && matches!(s.call, Call::Ca { .. }) && s.wanted().is_none()
    }),
    ("DL of a page inside an owned object", |s| {
        matches!(s.call, Call::Dl { .. }) && s.inner_page()
    }),
    ("AP of a page inside an owned object", |s| {
        matches!(s.call, Call::Ap { .. }) && s.inner_page()
    }),
    ("DP of a page inside an owned object", |s| {
        matches!(s.call, Call::Dp { .. }) && s.inner_page()
    }),
    ("RG of a page inside an owned object", |s| {
        matches!(s.call, Call::Rg { .. }) && s.inner_page()
    }),
    ("LK of P granted", |s| {
        s.done() && matches!(s.call, Call::Lk { rights: P, .. })
    }),
    ("LK of P and more with a registration's pair", |s| {
        s.refused(Refusal::NotGranted)
            && matches!(s.call, Call::Lk { rights, .. } if rights & P != 0 && *rights != P)
            && s.pairs().iter().any(|p| p.2 == P)
    }),
    ("P denied", |s| {
        s.judged() == Some(P) && s.decider().is_some_and(|p| p.2 & NOT != 0)
    }),
];
