//! Where things are in an image: every place follows from the sizes of the card.

use crate::rules::Sizes;
use std::ops::Range;

/// The length of an image in two bytes, and its version.
pub const HEADER_BYTES: usize = 3;
pub const SHORTEST_AID: u8 = 5;
pub const LONGEST_AID: u8 = 16;
/// The length byte, the AID's bytes and zero fill.
pub const AID: usize = 1 + LONGEST_AID as usize;
/// Interface and method.
pub const TOKENS: usize = 2;
/// An AID, tokens and a package number: an unmet call is callee AID, tokens, caller number, and a waiting grant is caller
/// AID, callee number, tokens.
pub const ROW: usize = AID + TOKENS + 1;
/// A waiting grant of version 01 is caller AID, callee number, service number.
pub const OLD_WAITING_ROW: usize = AID + 2;

/// The bytes of an image of any version.
pub type Image = [u8];

/// A row of bits, bit n for the package or the service with number n.
pub type Bits = u32;

/// A version of images. It is a type, so that the engine is built for its places.
pub trait Version {
    /// The version byte.
    const NUMBER: u8;
    const SIZES: &'static Sizes;
    /// The bytes of a waiting grant.
    const WAITING_ROW: usize;

    /// The bytes of a bit row of provides, calls, grants or needs.
    const ENTRY: usize = bytes_of_bits(Self::SIZES.services);
    /// The bytes of calls, of grants and of needs.
    const TABLE: usize = Self::ENTRY * Self::SIZES.packages * Self::SIZES.packages;

    const USED: usize = HEADER_BYTES;
    const AIDS: usize = Self::USED + bytes_of_bits(Self::SIZES.packages);
    const SERVICES: usize = Self::AIDS + AID * Self::SIZES.packages;
    const PROVIDES: usize = Self::SERVICES + TOKENS * Self::SIZES.services * Self::SIZES.packages;
    const CALLS: usize = Self::PROVIDES + Self::ENTRY * Self::SIZES.packages;
    const GRANTS: usize = Self::CALLS + Self::TABLE;
    const NEEDS: usize = Self::GRANTS + Self::TABLE;
    const UNMET: usize = Self::NEEDS + Self::TABLE;
    const WAITING: usize = Self::UNMET + 1 + ROW * Self::SIZES.listed;
    const SIZE: usize = Self::WAITING + 1 + Self::WAITING_ROW * Self::SIZES.listed;

    const HEADER: [u8; HEADER_BYTES] = [(Self::SIZE >> 8) as u8, Self::SIZE as u8, Self::NUMBER];

    /// Every package number.
    fn packages() -> Range<usize> {
        0..Self::SIZES.packages
    }

    /// The packages on the card.
    fn used(image: &Image) -> Bits {
        read_bits(&image[Self::USED..Self::AIDS])
    }

    fn set_used(image: &mut Image, packages: Bits) {
        write_bits(&mut image[Self::USED..Self::AIDS], packages);
    }

    fn aid_at(package: usize) -> usize {
        Self::AIDS + AID * package
    }

    fn aid(image: &Image, package: usize) -> &[u8; AID] {
        image[Self::aid_at(package)..].first_chunk().unwrap()
    }

    fn tokens_at(package: usize, service: usize) -> usize {
        Self::SERVICES + TOKENS * (Self::SIZES.services * package + service)
    }

    fn tokens(image: &Image, package: usize, service: usize) -> [u8; TOKENS] {
        *image[Self::tokens_at(package, service)..].first_chunk().unwrap()
    }

    fn provides_at(package: usize) -> usize {
        Self::PROVIDES + Self::ENTRY * package
    }

    /// The place of a bit row in calls, grants or needs.
    fn cell(table: usize, row: usize, column: usize) -> usize {
        table + Self::ENTRY * (Self::SIZES.packages * row + column)
    }

    /// The services in the bit row at a place.
    fn entry(image: &Image, at: usize) -> Bits {
        read_bits(&image[at..at + Self::ENTRY])
    }

    fn set_entry(image: &mut Image, at: usize, services: Bits) {
        write_bits(&mut image[at..at + Self::ENTRY], services);
    }

    /// Sets these bits of the row.
    fn set(image: &mut Image, at: usize, services: Bits) {
        Self::set_entry(image, at, Self::entry(image, at) | services);
    }

    /// Clears these bits of the row.
    fn clear(image: &mut Image, at: usize, services: Bits) {
        Self::set_entry(image, at, Self::entry(image, at) & !services);
    }

    fn provides(image: &Image, package: usize) -> Bits {
        Self::entry(image, Self::provides_at(package))
    }

    fn calls(image: &Image, caller: usize, callee: usize) -> Bits {
        Self::entry(image, Self::cell(Self::CALLS, caller, callee))
    }

    fn grants(image: &Image, callee: usize, caller: usize) -> Bits {
        Self::entry(image, Self::cell(Self::GRANTS, callee, caller))
    }

    fn needs(image: &Image, caller: usize, callee: usize) -> Bits {
        Self::entry(image, Self::cell(Self::NEEDS, caller, callee))
    }

    /// The numbers of the services whose bits are set, upwards.
    fn numbers(services: Bits) -> impl Iterator<Item = usize> {
        (0..Self::SIZES.services).filter(move |n| has(services, *n))
    }

    /// Whether some package needs one of these services of the package.
    fn needed(image: &Image, package: usize, services: Bits) -> bool {
        Self::packages().any(|caller| Self::needs(image, caller, package) & services != 0)
    }

    /// Gives a service the lowest unused number of its package.
    fn open_service(image: &mut Image, package: usize, tokens: [u8; TOKENS]) {
        let service = Self::provides(image, package).trailing_ones() as usize;
        Self::set(image, Self::provides_at(package), 1 << service);
        image[Self::tokens_at(package, service)..][..TOKENS].copy_from_slice(&tokens);
    }

    /// The number of the package with this AID.
    fn package(image: &Image, written: &[u8]) -> Option<usize> {
        let used = Self::used(image);
        Self::packages().filter(|&n| has(used, n)).find(|&n| is_aid(Self::aid(image, n), written))
    }

    /// The number of the package's service with these tokens.
    fn service(image: &Image, package: usize, wanted: [u8; TOKENS]) -> Option<usize> {
        Self::numbers(Self::provides(image, package)).find(|&n| Self::tokens(image, package, n) == wanted)
    }

    /// The package and service numbers of a service that is provided on the card.
    fn provided(image: &Image, callee: &[u8], tokens: [u8; TOKENS]) -> Option<(usize, usize)> {
        let package = Self::package(image, callee)?;
        Some((package, Self::service(image, package, tokens)?))
    }
}

/// Document 01's.
pub struct Version01;

impl Version for Version01 {
    const NUMBER: u8 = 1;
    const SIZES: &'static Sizes = &Sizes::SMALL;
    const WAITING_ROW: usize = OLD_WAITING_ROW;
}

/// R-2's: a waiting grant has tokens.
pub struct Version02;

impl Version for Version02 {
    const NUMBER: u8 = 2;
    const SIZES: &'static Sizes = &Sizes::SMALL;
    const WAITING_ROW: usize = ROW;
}

/// R-9's: the large card, "the same order of parts".
pub struct Version03;

impl Version for Version03 {
    const NUMBER: u8 = 3;
    const SIZES: &'static Sizes = &Sizes::LARGE;
    const WAITING_ROW: usize = ROW;
}

const fn bytes_of_bits(numbers: usize) -> usize {
    numbers.div_ceil(8)
}

/// Big-endian.
fn read_bits(bytes: &[u8]) -> Bits {
    bytes.iter().fold(0, |bits, byte| bits << 8 | Bits::from(*byte))
}

fn write_bits(place: &mut [u8], bits: Bits) {
    let bytes = bits.to_be_bytes();
    place.copy_from_slice(&bytes[bytes.len() - place.len()..]);
}

/// Whether bit n is set.
pub fn has(bits: Bits, n: usize) -> bool {
    bits >> n & 1 == 1
}

/// The AID without its fill: the length byte and the bytes, as records write it.
pub fn written(aid: &[u8; AID]) -> &[u8] {
    &aid[..1 + usize::from(aid[0])]
}

/// Whether an AID of the tables is this one, which is given as records write it. Of one length,
/// AIDs mostly differ in the last byte.
pub fn is_aid(stored: &[u8; AID], written: &[u8]) -> bool {
    let last = written.len() - 1;
    stored[0] == written[0] && stored[last] == written[last] && stored[..last] == written[..last]
}

#[cfg(test)]
mod tests {
    use super::*;

    fn tables<V: Version>() -> [usize; 7] {
        [V::USED, V::AIDS, V::SERVICES, V::PROVIDES, V::CALLS, V::GRANTS, V::NEEDS]
    }

    fn lists<V: Version>() -> [usize; 3] {
        [V::UNMET, V::WAITING, V::SIZE]
    }

    #[test]
    fn the_places_are_the_papers() {
        assert_eq!((tables::<Version01>(), lists::<Version01>()), ([3, 4, 140, 268, 276, 340, 404], [468, 789, 1094]));
        assert_eq!((tables::<Version02>(), lists::<Version02>()), ([3, 4, 140, 268, 276, 340, 404], [468, 789, 1110]));
        let headers = [Version01::HEADER, Version02::HEADER, Version03::HEADER];
        assert_eq!(headers, [[0x04, 0x46, 0x01], [0x04, 0x56, 0x02], [0x0E, 0x37, 0x03]]);
    }

    /// "A used field and table entries of two bytes", "the same order of parts".
    #[test]
    fn the_large_card_has_its_parts_in_the_same_order() {
        assert_eq!(tables::<Version03>(), [3, 5, 277, 789, 821, 1333, 1845]);
        assert_eq!(lists::<Version03>(), [2357, 2998, 3639]);
    }
}
