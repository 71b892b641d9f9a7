//! Images that do not read for one reason each.

use super::flipped::whole_lock;
use super::refused;
use crate::places::Places;
use crate::slices::{Panel, Slices};
use crate::stage::{sixteen, stage};
use refmonitor::image::{decode, DOMAINS_AT, LIMITS_AT, OBJECT_BYTES, SETS_AT};
use refmonitor::monitor::Call;
use reshqobi::Refusal;

/// The places of domain 0's two objects, and of the two passwords of the second.
const OBJECTS: Places = Places::of_estate(0);
const PASSWORDS: Places = Places::of_object(0, 1);

/// What is done to the image of the stage.
type Change = (&'static str, fn(&mut [u8]));

#[rustfmt::skip]
const CHANGES: [Change; 19] = [
    ("33 pages", |image| image[1] = 33),
    ("a mode of 16", |image| image[10] = 16),
    ("an entry where there is no registration", |image| image[63] = 1),
    ("account 4", |image| image[64] = 4),
    ("an entry in a free place", |image| image[DOMAINS_AT - 2] = 1),
    ("an account in a free place", |image| image[DOMAINS_AT - 1] = 1),
    ("a whole lock of 2", |image| image[whole_lock(0)] = 2),
    ("a byte of a frame that is not saved", |image| image[whole_lock(3) + 1] = 1),
    ("a depth of 5", |image| image[LIMITS_AT - 1] = 5),
    ("a limit of 129", |image| image[LIMITS_AT + 1] = 129),
    ("a set of 16", |image| image[SETS_AT + 3] = 16),
    ("bases fall", |image| OBJECTS.shift(image, 0, 1)),
    ("bases are equal", |image| image.copy_within(..OBJECT_BYTES, OBJECT_BYTES)),
    ("the first place is free", |image| OBJECTS.shift(image, 7, 0)),
    ("a place between objects is free", |image| OBJECTS.shift(image, 7, 1)),
    ("an object in the last place", |image| OBJECTS.shift(image, 1, 7)),
    ("the first password's place is free", |image| PASSWORDS.shift(image, 3, 0)),
    ("a place between passwords is free", |image| PASSWORDS.shift(image, 3, 1)),
    ("a password in the last place", |image| PASSWORDS.shift(image, 1, 3)),
];

/// All calls but BT, by a domain and by one that there is not.
pub fn unreadable(panel: Panel) -> Result<(), String> {
    let (stage, number) = (Slices::of(&stage()), Refusal::Unreadable.number());
    for (what, change) in CHANGES {
        let mut slices = stage.clone();
        change(slices.image.bytes_mut());
        if decode(slices.image.bytes()).is_some() {
            return Err(format!("{what}: reads"));
        }
        for call in sixteen() {
            if !matches!(call, Call::Bt { .. }) {
                for domain in [0, 4] {
                    let tried = refused(&mut slices, panel, (domain, &call), number);
                    tried.map_err(|found| format!("{what}: {found}"))?;
                }
            }
        }
    }
    Ok(())
}
