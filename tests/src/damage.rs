//! Damage to images: one or two bytes, where they are likely to tell.

use crate::card::LARGE_IMAGE;
use crate::methods;
use crate::random::Random;
use crate::tables::{Bit, Form};

/// Bytes put at places of an image.
#[derive(Clone, Debug, Default, PartialEq, Eq)]
pub struct Damage(pub Vec<(usize, u8)>);

impl Damage {
    /// One byte changed: anywhere, or a method token to one around 128.
    pub fn one_byte(image: &[u8], random: &mut Random) -> Damage {
        if random.percent(15) {
            if let Some((_, at)) = random.pick(&methods::of_image(image)) {
                return Damage(vec![(*at, [126, 127, 127, 128, 128, 129, 255][random.below(7)])]);
            }
        }
        let at = place(image, random);
        Damage(vec![(at, changed(image[at], random))])
    }

    /// Two bytes changed: anywhere, or the same bit of one caller and callee in two tables.
    pub fn two_bytes(image: &[u8], random: &mut Random) -> Damage {
        if random.percent(60) {
            let places = [place(image, random), place(image, random)];
            return Damage(places.map(|at| (at, changed(image[at], random))).to_vec());
        }
        let form = Form::of_image(image);
        let (caller, callee) = (random.below(form.sizes.packages), random.below(form.sizes.packages));
        let bit = Bit { caller, callee, service: random.below(form.sizes.services) };
        let places = [form.call_bit(&bit), form.grant_bit(&bit), form.need_bit(&bit)];
        let left_out = random.below(places.len());
        let kept = places.into_iter().enumerate().filter(|(n, _)| *n != left_out);
        Damage(kept.map(|(_, at)| (at.byte, image[at.byte] ^ at.bit)).collect())
    }

    /// The image with the damage.
    pub fn done_to(&self, image: &[u8]) -> Vec<u8> {
        let mut image = image.to_vec();
        for (at, byte) in &self.0 {
            // An image of an earlier version ends before some places of a later one.
            if let Some(place) = image.get_mut(*at) {
                *place = *byte;
            }
        }
        image
    }

    /// Places and bytes, as in `3=0F,1109=01`.
    pub fn to_text(&self) -> String {
        self.0.iter().map(|(at, byte)| format!("{at}={byte:02X}")).collect::<Vec<_>>().join(",")
    }

    /// Reads what `to_text` writes; `None` when something else stands there.
    pub fn from_text(text: &str) -> Option<Damage> {
        let places = text.split(',').map(|place| {
            let (at, byte) = place.split_once('=')?;
            let at: usize = at.parse().ok()?;
            (at < LARGE_IMAGE).then_some((at, u8::from_str_radix(byte, 16).ok()?))
        });
        places.collect::<Option<Vec<_>>>().map(Damage)
    }
}

fn changed(byte: u8, random: &mut Random) -> u8 {
    match random.below(4) {
        0 => random.byte(),
        1 => byte.wrapping_add(1),
        2 => byte.wrapping_sub(1),
        _ => byte ^ (1 << random.below(8)),
    }
}

/// A place anywhere, or in a part of the image that is otherwise seldom reached.
fn place(image: &[u8], random: &mut Random) -> usize {
    let form = Form::of_image(image);
    let listed = form.sizes.listed;
    let count_or_length = [
        form.unmet,
        form.waiting,
        form.aid(random.below(form.sizes.packages)),
        form.unmet_at(random.below(listed)),
        form.waiting_at(random.below(listed)),
    ];
    // The count of a list, its rows and one place more.
    let rows = |list: usize| (usize::from(image[list]) + 1).min(listed);
    match random.below(9) {
        0 => random.below(form.aids),
        1 => random.between(form.aids, form.tokens - 1),
        2 => random.between(form.tokens, form.calls - 1),
        3 => random.between(form.calls, form.unmet - 1),
        4 => form.unmet + random.below(1 + form.unmet_row * rows(form.unmet)),
        5 => form.waiting + random.below(1 + form.waiting_row * rows(form.waiting)),
        6 => count_or_length[random.below(count_or_length.len())],
        _ => random.below(image.len()),
    }
}

#[cfg(test)]
mod tests {
    use super::*;
    use crate::card::{IMAGE, OLD_IMAGE};

    #[test]
    fn damage_changes_the_bytes_it_names() {
        let mut random = Random::new(5);
        for size in [OLD_IMAGE, IMAGE, LARGE_IMAGE].repeat(200) {
            let image = vec![0; size];
            let (one, two) = (Damage::one_byte(&image, &mut random), Damage::two_bytes(&image, &mut random));
            assert_eq!((one.0.len(), two.0.len()), (1, 2));
            let damaged = two.done_to(&image);
            assert!((0..size).all(|at| damaged[at] == image[at] || two.0.contains(&(at, damaged[at]))));
            assert_eq!(Damage::from_text(&two.to_text()), Some(two));
        }
        assert_eq!(Damage::from_text(&format!("{LARGE_IMAGE}=00")), None);
        assert_eq!(Damage::from_text("3"), None);
        let past = Damage::from_text(&format!("{}=01", IMAGE - 1)).expect("a place of version 02");
        assert_eq!((past.done_to(&[0; IMAGE])[IMAGE - 1], past.done_to(&[0; OLD_IMAGE])), (1, vec![0; OLD_IMAGE]));
    }
}
