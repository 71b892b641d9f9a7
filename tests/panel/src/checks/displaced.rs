//! Images with objects or passwords in other places.

use super::flipped::Flipped;
use crate::places::Places;
use crate::slices::{Panel, Slices};
use refmonitor::image::decode;
use refmonitor::random::Random;

/// So many images, each with the places of one estate or object in another order.
pub fn displaced(
    panel: Panel,
    whole: &Slices,
    store: &[u64],
    seed: u64,
    count: usize,
) -> Result<Flipped, String> {
    let (mut random, mut found) = (Random::new(seed), Flipped::default());
    let mut all = Places::all();
    all.retain(|places| places.standing(whole.clone().image.bytes_mut()) > 0);
    for i in 0..count {
        let mut slices = whole.clone();
        let (places, image) = (all[i % all.len()], slices.image.bytes_mut());
        places.shuffle(image, &mut random);
        let wrong = |what: &str| format!("image {i} in another order: {what}");
        if decode(image).is_some() != places.read(image, whole.image.bytes()) {
            return Err(wrong("read by other places than it should be"));
        }
        let tried = found.try_image(panel, slices, store);
        tried.map_err(|what| wrong(&what))?;
    }
    Ok(found)
}
