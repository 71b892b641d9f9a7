//! Pairs and Clists judged wrongly.

use super::*;

pub(super) const JUDGING: &[Broken] = &[
    ("negative pairs ignored", |m, _, d, c| {
        let denies = |_, _| false;
        Judge { denies, ..RIGHT }.look(m, d, c)
    }),
    ("negative pairs deny only all", |m, _, d, c| {
        let denies = |mode, wanted| mode & NOT != 0 && mode & wanted == wanted;
        Judge { denies, ..RIGHT }.look(m, d, c)
    }),
    ("negative pairs deny everything", |m, _, d, c| {
        let denies = |mode, _| mode & NOT != 0;
        Judge { denies, ..RIGHT }.look(m, d, c)
    }),
    ("page cut to seven bits", |m, _, d, c| {
        let mode = |o: &Object, word, password| true_mode(o, word & 0x7fff, password);
        Judge { mode, ..RIGHT }.look(m, d, c)
    }),
    ("password cut to 32 bits", |m, _, d, c| {
        let mode = |o: &Object, word, password| {
            let known = o.passwords.iter();
            let mut alike = known.filter(|p| p.word as u32 == password as u32);
            let alike = alike.next().map_or(password, |p| p.word);
            true_mode(o, word, alike)
        };
        Judge { mode, ..RIGHT }.look(m, d, c)
    }),
    ("registration's password never true", |m, _, d, c| {
        let mode = |o: &Object, word, password| {
            let mode = true_mode(o, word, password);
            mode.filter(|&mode| mode != P)
        };
        Judge { mode, ..RIGHT }.look(m, d, c)
    }),
    ("LK gives the pair's number", |m, _, d, c| {
        let outcome = m.call(d, c);
        match (looks(d, c), outcome) {
            (Some(_), Ok(Done::Value(at))) => Ok(Done::Value(at / 2)),
            (_, other) => other,
        }
    }),
    ("dead slots are searched", |m, _, d, c| {
        // Slots named by a registration's password count as live.
        if let (Some((at, rights)), Err(Refusal::NotGranted)) = (looks(d, c), m.clone().call(d, c))
        {
            let mut copy = m.clone();
            for object in &mut copy.objects {
                if let Some(r) = &object.registration {
                    let word = r.password;
                    object.passwords.push(Password { word, mode: R });
                }
            }
            let object = m.index_at(at).map(|i| m.objects[i].clone());
            if let Some(object) = object {
                let pair = copy.granting_pair(d as usize, &object, rights);
                return pair.map(Done::Value).ok_or(Refusal::NotGranted);
            }
        }
        m.call(d, c)
    }),
];
