//! The tests' own reader of images: what the tables of a sound image stand for.
//!
//! It reads only the places where a sound image may have something and writes a new image from
//! what it read. Where the two differ, something stands where nothing may.

use crate::machine::{Aid, Contract, Machine, Row, Tokens};
use crate::rules::{Rules, Sizes};

/// What an image's tables say, whichever version it has.
#[derive(Clone, Debug, PartialEq, Eq)]
pub struct Tables {
    /// By package number.
    pub packages: Vec<Option<Package>>,
    /// The bits set, by callee, caller and service.
    pub calls: Vec<Bit>,
    pub grants: Vec<Bit>,
    pub needs: Vec<Bit>,
    pub unmet: Vec<Unmet>,
    pub waiting: Vec<Waiting>,
}

#[derive(Clone, Debug, PartialEq, Eq)]
pub struct Package {
    pub aid: Aid,
    /// By service number.
    pub services: Vec<Option<Tokens>>,
}

/// A service that one package calls, is granted or needs of another.
#[derive(Clone, Copy, Debug, PartialEq, Eq, PartialOrd, Ord)]
pub struct Bit {
    pub callee: usize,
    pub caller: usize,
    pub service: usize,
}

#[derive(Clone, Copy, Debug, PartialEq, Eq, PartialOrd, Ord)]
pub struct Unmet {
    pub callee: Aid,
    pub tokens: Tokens,
    pub caller: usize,
}

/// A grant that waits. In an image of version 01 its service's number stands for the tokens.
#[derive(Clone, Copy, Debug, PartialEq, Eq, PartialOrd, Ord)]
pub struct Waiting {
    pub caller: Aid,
    pub callee: usize,
    pub tokens: Tokens,
}

/// The contracts that an image stands for; `None` when it is not sound by the rules.
pub fn contracts(rules: Rules, image: &[u8]) -> Option<Machine> {
    Tables::of(rules, image).map(|tables| tables.machine())
}

/// The rules in force on the card that the image is of; on the small one where its length is no card's.
pub fn in_force(image: &[u8]) -> Rules {
    let of_card = |sizes: &&'static Sizes| Form::of(Rules::IN_FORCE.on(sizes)).size == image.len();
    Rules::IN_FORCE.on(Sizes::ALL.into_iter().find(of_card).unwrap_or(&Sizes::SMALL))
}

/// The AID at a package number of a sound image; `None` when the number is not used.
pub fn aid_at(rules: Rules, image: &[u8], number: u32) -> Option<Aid> {
    let (form, number) = (Form::of(rules), number as usize);
    let used = number < form.sizes.packages && form.used_bit(number).is_set(image);
    used.then(|| read_aid(&image[form.aid(number)..])).flatten()
}

/// The length of the image in two bytes, and its version.
const HEADER: usize = 3;
/// The length byte, the AID's bytes and zero fill.
const AID: usize = 1 + *Aid::LENGTHS.end();
/// Interface and method.
const PAIR: usize = 2;

/// Where the parts of an image begin. Each begins where the one before it ends.
#[derive(Clone, Copy)]
pub struct Form {
    pub sizes: &'static Sizes,
    /// The length of the image and its version.
    pub header: [u8; HEADER],
    pub size: usize,
    pub used: usize,
    pub aids: usize,
    pub tokens: usize,
    pub provides: usize,
    pub calls: usize,
    pub grants: usize,
    pub needs: usize,
    /// The lists: a count byte, then the rows.
    pub unmet: usize,
    pub waiting: usize,
    /// The bytes of a row.
    pub unmet_row: usize,
    pub waiting_row: usize,
}

impl Form {
    /// Of the images that the rules have.
    pub const fn of(rules: Rules) -> Form {
        let Sizes { packages, services, listed, .. } = *rules.sizes;
        let table = packages * packages * width(services);
        // A row has an AID, a package number and tokens, or in version 01 the number of a service to be granted.
        let unmet_row = AID + 1 + PAIR;
        let waiting_row = if rules.early_grants { unmet_row } else { AID + 1 + 1 };
        let version = match rules.early_grants {
            _ if packages == Sizes::LARGE.packages => 3,
            true => 2,
            false => 1,
        };
        let used = HEADER;
        let aids = used + width(packages);
        let tokens = aids + packages * AID;
        let provides = tokens + packages * services * PAIR;
        let calls = provides + packages * width(services);
        let [grants, needs, unmet] = [calls + table, calls + 2 * table, calls + 3 * table];
        let waiting = unmet + 1 + listed * unmet_row;
        let size = waiting + 1 + listed * waiting_row;
        let [high, low] = (size as u16).to_be_bytes();
        let (sizes, header) = (rules.sizes, [high, low, version]);
        Form {
            sizes,
            header,
            size,
            used,
            aids,
            tokens,
            provides,
            calls,
            grants,
            needs,
            unmet,
            waiting,
            unmet_row,
            waiting_row,
        }
    }

    /// Of an image whose size is that of some version.
    pub fn of_image(image: &[u8]) -> Form {
        let on_each = |sizes: &'static Sizes| Rules::ALL.into_iter().map(move |rules| Form::of(rules.on(sizes)));
        let mut forms = Sizes::ALL.into_iter().flat_map(on_each);
        forms.find(|form| form.size == image.len()).expect("an image of some version")
    }

    /// The place of a package's AID.
    pub const fn aid(&self, package: usize) -> usize {
        self.aids + package * AID
    }

    /// The place of a service's tokens.
    pub const fn token_pair(&self, package: usize, service: usize) -> usize {
        self.tokens + (package * self.sizes.services + service) * PAIR
    }

    /// The place of a row of unmet calls.
    pub const fn unmet_at(&self, row: usize) -> usize {
        self.unmet + 1 + row * self.unmet_row
    }

    /// The place of a row of waiting grants.
    pub const fn waiting_at(&self, row: usize) -> usize {
        self.waiting + 1 + row * self.waiting_row
    }

    pub fn used_bit(&self, package: usize) -> BitAt {
        BitAt::of(self.used, self.sizes.packages, package)
    }

    pub fn provided_bit(&self, package: usize, service: usize) -> BitAt {
        self.entry_bit(self.provides, package, service)
    }

    /// "Row the caller, column the callee."
    pub fn call_bit(&self, bit: &Bit) -> BitAt {
        self.table_bit(self.calls, bit.caller, bit.callee, bit.service)
    }

    /// "Row the callee, column the caller."
    pub fn grant_bit(&self, bit: &Bit) -> BitAt {
        self.table_bit(self.grants, bit.callee, bit.caller, bit.service)
    }

    /// "As calls."
    pub fn need_bit(&self, bit: &Bit) -> BitAt {
        self.table_bit(self.needs, bit.caller, bit.callee, bit.service)
    }

    fn table_bit(&self, table: usize, row: usize, column: usize, service: usize) -> BitAt {
        self.entry_bit(table, row * self.sizes.packages + column, service)
    }

    fn entry_bit(&self, start: usize, entry: usize, service: usize) -> BitAt {
        BitAt::of(start + entry * width(self.sizes.services), self.sizes.services, service)
    }
}

/// The bytes that so many bits have.
const fn width(bits: usize) -> usize {
    bits / 8
}

/// A bit of an image: its byte, and the bit alone.
#[derive(Clone, Copy)]
pub struct BitAt {
    pub byte: usize,
    pub bit: u8,
}

impl BitAt {
    /// Of so many bits at a place, big-endian, the one with this number.
    fn of(start: usize, bits: usize, number: usize) -> BitAt {
        BitAt { byte: start + width(bits) - 1 - number / 8, bit: 1 << (number % 8) }
    }

    pub fn is_set(self, image: &[u8]) -> bool {
        image[self.byte] & self.bit != 0
    }

    fn set(self, image: &mut [u8]) {
        image[self.byte] |= self.bit;
    }
}

impl Tables {
    /// The tables of the empty image.
    pub fn empty(rules: Rules) -> Tables {
        let [calls, grants, needs] = [const { Vec::new() }; 3];
        let packages = vec![None; rules.sizes.packages];
        Tables { packages, calls, grants, needs, unmet: Vec::new(), waiting: Vec::new() }
    }

    /// The tables of an image that is sound by the rules.
    pub fn of(rules: Rules, image: &[u8]) -> Option<Tables> {
        Tables::read(rules, image).filter(|tables| tables.write(rules) == image && tables.hold(rules))
    }

    /// The tables of an image that is sound by the rules in force, and of either card.
    pub fn in_force(image: &[u8]) -> Option<Tables> {
        Tables::of(in_force(image), image)
    }

    fn read(rules: Rules, image: &[u8]) -> Option<Tables> {
        let form = Form::of(rules);
        if image.len() != form.size {
            return None;
        }
        let mut tables = Tables::empty(rules);
        for (number, place) in tables.packages.iter_mut().enumerate() {
            if form.used_bit(number).is_set(image) {
                let aid = read_aid(&image[form.aid(number)..])?;
                let service = |service: usize| {
                    let provided = form.provided_bit(number, service).is_set(image);
                    provided.then(|| read_tokens(&image[form.token_pair(number, service)..]))
                };
                *place = Some(Package { aid, services: (0..form.sizes.services).map(service).collect() });
            }
        }
        for place in places(&tables.packages) {
            if form.grant_bit(&place).is_set(image) {
                tables.grants.push(place);
            }
            if form.call_bit(&place).is_set(image) {
                tables.calls.push(place);
                if form.need_bit(&place).is_set(image) {
                    tables.needs.push(place);
                }
            }
        }
        for row in list(&form, image, form.unmet, form.unmet_row)? {
            let (callee, [interface, method, caller]) = (read_aid(row)?, *row[AID..].first_chunk()?);
            tables.unmet.push(Unmet { callee, tokens: Tokens { interface, method }, caller: caller.into() });
        }
        for row in list(&form, image, form.waiting, form.waiting_row)? {
            let (caller, callee, rest) = (read_aid(row)?, usize::from(row[AID]), &row[AID + 1..]);
            let tokens = match rules.early_grants {
                true => read_tokens(rest),
                false => (*tables.at(callee)?.services.get(usize::from(rest[0]))?)?,
            };
            tables.waiting.push(Waiting { caller, callee, tokens });
        }
        Some(tables)
    }

    /// The image with these tables, of the version that the rules have. Those of a small card fit into a large one.
    pub fn write(&self, rules: Rules) -> Vec<u8> {
        let form = Form::of(rules);
        let mut image = vec![0; form.size];
        image[..HEADER].copy_from_slice(&form.header);
        for (number, package) in self.packages.iter().enumerate() {
            let Some(package) = package else { continue };
            form.used_bit(number).set(&mut image);
            write_aid(&mut image[form.aid(number)..], package.aid);
            for (service, tokens) in package.services.iter().enumerate() {
                let Some(tokens) = tokens else { continue };
                form.provided_bit(number, service).set(&mut image);
                write_tokens(&mut image[form.token_pair(number, service)..], *tokens);
            }
        }
        self.calls.iter().for_each(|call| form.call_bit(call).set(&mut image));
        self.grants.iter().for_each(|grant| form.grant_bit(grant).set(&mut image));
        self.needs.iter().for_each(|need| form.need_bit(need).set(&mut image));
        image[form.unmet] = self.unmet.len() as u8;
        for (n, row) in self.unmet.iter().enumerate() {
            let place = &mut image[form.unmet_at(n)..];
            write_aid(place, row.callee);
            write_tokens(&mut place[AID..], row.tokens);
            place[AID + PAIR] = row.caller as u8;
        }
        image[form.waiting] = self.waiting.len() as u8;
        for (n, row) in self.waiting.iter().enumerate() {
            let place = &mut image[form.waiting_at(n)..];
            write_aid(place, row.caller);
            place[AID] = row.callee as u8;
            match rules.early_grants {
                true => write_tokens(&mut place[AID + 1..], row.tokens),
                false => place[AID + 1] = self.service(row.callee, row.tokens).expect("a service provided") as u8,
            }
        }
        image
    }

    /// The number of the package with this AID.
    pub fn number(&self, aid: Aid) -> Option<usize> {
        self.packages.iter().position(|package| package.as_ref().is_some_and(|package| package.aid == aid))
    }

    /// The number of the package's service with these tokens.
    pub fn service(&self, package: usize, tokens: Tokens) -> Option<usize> {
        self.at(package)?.services.iter().position(|service| *service == Some(tokens))
    }

    /// Gives the services of the package other numbers, by those that they have.
    pub fn renumber(&mut self, package: usize, number: impl Fn(usize) -> usize) {
        let Some(own) = &mut self.packages[package] else { return };
        let none = vec![None; own.services.len()];
        let old = std::mem::replace(&mut own.services, none);
        for (service, tokens) in old.into_iter().enumerate().filter(|(_, tokens)| tokens.is_some()) {
            own.services[number(service)] = tokens;
        }
        for bit in [&mut self.calls, &mut self.grants, &mut self.needs].into_iter().flatten() {
            if bit.callee == package {
                bit.service = number(bit.service);
            }
        }
    }

    /// What a sound image has besides the right form.
    fn hold(&self, rules: Rules) -> bool {
        let installed = || self.packages.iter().flatten();
        let aids_differ = differ(installed().map(|package| package.aid));
        let tokens_differ = installed().all(|package| differ(package.services.iter().flatten()));
        let provided = installed().flat_map(|package| package.services.iter().flatten());
        let listed = self.unmet.iter().map(|row| &row.tokens).chain(self.waiting.iter().map(|row| &row.tokens));
        let methods_stop = provided.chain(listed).all(|tokens| tokens.method <= rules.most_method);
        let lawful = self.calls.iter().all(|call| self.grants.binary_search(call).is_ok());
        let rows_differ = differ(self.unmet.iter()) && differ(self.waiting.iter());
        let unmet_hold = self.unmet.iter().all(|row| self.unmet_holds(row));
        let waiting_hold = self.waiting.iter().all(|row| self.waiting_holds(row));
        aids_differ && tokens_differ && methods_stop && lawful && rows_differ && unmet_hold && waiting_hold
    }

    /// "Every unmet call has a valid AID other than its caller's, a used caller and no such service on the card."
    pub fn unmet_holds(&self, row: &Unmet) -> bool {
        let provides = |package: &Package| package.aid == row.callee && package.services.contains(&Some(row.tokens));
        let another = self.at(row.caller).is_some_and(|caller| caller.aid != row.callee);
        another && !self.packages.iter().flatten().any(provides)
    }

    /// Every waiting grant has a valid AID other than its callee's, a used callee, "and not both an installed caller and a
    /// service that the callee provides". Before R-2 a waiting grant names a service by its number.
    pub fn waiting_holds(&self, row: &Waiting) -> bool {
        let another = self.at(row.callee).is_some_and(|callee| callee.aid != row.caller);
        another && !(self.number(row.caller).is_some() && self.service(row.callee, row.tokens).is_some())
    }

    /// The package with this number.
    pub fn at(&self, number: usize) -> Option<&Package> {
        self.packages.get(number).and_then(Option::as_ref)
    }

    /// The contracts, one for each used number under its AID.
    pub fn machine(&self) -> Machine {
        let provides = |package: &Package| package.services.iter().flatten().copied().collect();
        let begun = |package: &Package| Contract { provides: provides(package), ..Contract::default() };
        let mut contracts: Vec<_> = self.packages.iter().map(|package| package.as_ref().map(begun)).collect();
        let called = |place: &Bit| self.row(place.callee, place.callee, place.service);
        for place in &self.calls {
            contracts[place.caller].as_mut().unwrap().calls.insert(called(place));
        }
        for place in &self.needs {
            contracts[place.caller].as_mut().unwrap().needs.insert(called(place));
        }
        for place in &self.grants {
            let row = self.row(place.caller, place.callee, place.service);
            contracts[place.callee].as_mut().unwrap().grants.insert(row);
        }
        for row in &self.unmet {
            let call = Row { other: row.callee, tokens: row.tokens };
            contracts[row.caller].as_mut().unwrap().calls.insert(call);
        }
        for row in &self.waiting {
            let grant = Row { other: row.caller, tokens: row.tokens };
            contracts[row.callee].as_mut().unwrap().grants.insert(grant);
        }
        let aids = self.packages.iter().flatten().map(|package| package.aid);
        Machine { contracts: aids.zip(contracts.into_iter().flatten()).collect() }
    }

    /// The row with the AID of package `other` and the tokens of a service of package `provider`.
    pub fn row(&self, other: usize, provider: usize, service: usize) -> Row {
        let package = |n: usize| self.packages[n].as_ref().unwrap();
        Row { other: package(other).aid, tokens: package(provider).services[service].unwrap() }
    }
}

/// The places that a bit may have, upwards: two different used numbers and a service provided.
pub fn places(packages: &[Option<Package>]) -> Vec<Bit> {
    let mut places = Vec::new();
    for (callee, package) in packages.iter().enumerate() {
        let Some(package) = package else { continue };
        for caller in (0..packages.len()).filter(|caller| *caller != callee && packages[*caller].is_some()) {
            let services = (0..package.services.len()).filter(|service| package.services[*service].is_some());
            places.extend(services.map(|service| Bit { caller, callee, service }));
        }
    }
    places
}

/// The rows of the list at `start`; `None` when its count is above what lists have.
fn list<'a>(form: &Form, image: &'a [u8], start: usize, row: usize) -> Option<impl Iterator<Item = &'a [u8]>> {
    let count = usize::from(image[start]);
    (count <= form.sizes.listed).then(|| image[start + 1..].chunks(row).take(count))
}

fn read_aid(place: &[u8]) -> Option<Aid> {
    let length = usize::from(place[0]);
    Aid::LENGTHS.contains(&length).then(|| Aid::new(&place[1..1 + length]))
}

fn write_aid(place: &mut [u8], aid: Aid) {
    let bytes = aid.bytes();
    place[0] = bytes.len() as u8;
    place[1..1 + bytes.len()].copy_from_slice(bytes);
}

fn read_tokens(place: &[u8]) -> Tokens {
    Tokens { interface: place[0], method: place[1] }
}

fn write_tokens(place: &mut [u8], tokens: Tokens) {
    place[..PAIR].copy_from_slice(&[tokens.interface, tokens.method]);
}

fn differ<T: Ord>(items: impl Iterator<Item = T>) -> bool {
    let mut items: Vec<T> = items.collect();
    items.sort();
    items.windows(2).all(|two| two[0] != two[1])
}

#[cfg(test)]
mod tests {
    use super::*;

    /// The paper's offsets.
    #[test]
    fn the_places_are_the_papers() {
        for (rules, version, size) in [(Rules::R_7, 1, 1094), (Rules::R_2, 2, 1110)] {
            let form = Form::of(rules);
            assert_eq!([form.used, form.aids, form.tokens, form.provides], [3, 4, 140, 268]);
            assert_eq!([form.calls, form.grants, form.needs, form.unmet, form.waiting], [276, 340, 404, 468, 789]);
            assert_eq!((form.size, form.header), (size, [0x04, size as u8, version]));
        }
    }

    /// "16 packages of 16 services, a used field and table entries of two bytes, big-endian, 32 rows in each list."
    #[test]
    fn the_sizes_of_r_9_make_its_image() {
        let form = Form::of(Rules::IN_FORCE.on(&Sizes::LARGE));
        assert_eq!((form.size, form.header), (3639, [0x0E, 0x37, 0x03]));
        let bits = [form.used_bit(0), form.used_bit(15), form.provided_bit(1, 7), form.provided_bit(1, 8)];
        let provides = form.provides + 2;
        assert_eq!(bits.map(|at| (at.byte, at.bit)), [(4, 0x01), (3, 0x80), (provides + 1, 0x80), (provides, 0x01)]);
    }
}
