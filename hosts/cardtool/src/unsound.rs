//! Why an image is not sound, byte by byte.

use crate::contract::{Aid, Tokens};
use crate::fault::Fault;
use crate::layout::{bits, Image, Layout, Table, AID, VERSION_01, VERSION_02, VERSION_03};
use crate::names::Names;
use crate::tables::aid;
use crate::words::{counted, cut};

/// What is said of an image of version 01 that is to be judged.
pub const OLD: &str = "the image has version 01, and has to be converted before it can be judged: 'cardtool convert'";

/// The image, where some layout has its size.
pub fn sized(bytes: &[u8]) -> Result<Image<'_>, Fault> {
    Image::new(bytes).ok_or_else(|| {
        let begun = Layout::ALL.into_iter().find(|layout| bytes.starts_with(&layout.header));
        let [small, large, old] = [&VERSION_02, &VERSION_03, &VERSION_01].map(|layout| layout.size());
        let words = format!("an image has {small} bytes, of a large card {large}, or {old} in version 01");
        let place = bytes.len().min(begun.unwrap_or(&VERSION_02).size());
        Fault::byte(place, format!("{words}, here are {}", bytes.len()))
    })
}

/// Everything that keeps an image from being sound; nothing when it is sound. One of version 01 is judged by the last
/// rules that had that version.
pub fn faults(bytes: &[u8], names: &Names) -> Vec<Fault> {
    let image = match sized(bytes) {
        Ok(image) => image,
        Err(fault) => return vec![fault],
    };
    let mut look = Look { image, names, faults: Vec::new() };
    look.header();
    for package in 0..image.layout.packages {
        look.package(package);
        look.services(package);
    }
    for row in 0..image.layout.packages {
        for column in 0..image.layout.packages {
            look.cells(row, column);
        }
    }
    look.unmet();
    look.waiting();
    look.faults.sort_by_key(|fault| fault.0);
    look.faults.into_iter().map(|(byte, words)| Fault::byte(byte, words)).collect()
}

struct Look<'a> {
    image: Image<'a>,
    names: &'a Names,
    faults: Vec<(usize, String)>,
}

impl Look<'_> {
    fn say(&mut self, byte: usize, words: impl Into<String>) {
        self.faults.push((byte, words.into()));
    }

    /// The AID of a package, where its place holds one.
    fn aid(&self, number: usize) -> Option<Aid> {
        let used = self.image.used(number).then(|| self.image.aid_place(self.image.layout.aid_at(number)));
        used.and_then(aid)
    }

    /// A package by its number, and its name where it has one.
    fn named(&self, number: usize) -> String {
        match self.aid(number).and_then(|aid| self.names.name(aid)) {
            Some(name) => format!("package {number} ({})", cut(name)),
            None => format!("package {number}"),
        }
    }

    /// A package's service by its number, and its name where it is provided and has one.
    fn service(&self, package: usize, number: usize) -> String {
        let [interface, method] = self.image.tokens(self.image.layout.tokens_at(package, number));
        let tokens = Tokens { interface, method };
        let owner = self.aid(package).filter(|_| self.provides(package, number));
        let word = owner.map(|aid| self.names.service_word(aid, tokens));
        match word.filter(|word| *word != tokens.to_string()) {
            Some(name) => format!("service {number} ({})", cut(&name)),
            None => format!("service {number}"),
        }
    }

    fn provides(&self, package: usize, service: usize) -> bool {
        bits(self.image.provides(package)).any(|provided| provided == service)
    }

    fn header(&mut self) {
        for (at, byte) in self.image.layout.header.into_iter().enumerate() {
            let found = self.image.bytes[at];
            if found != byte {
                self.say(at, format!("here is {found:02X}, and the header has {byte:02X}"));
            }
        }
    }

    fn package(&mut self, number: usize) {
        let layout = self.image.layout;
        let at = layout.aid_at(number);
        if !self.image.used(number) {
            self.zero(at, AID, &format!("package {number} is not used, and its AID's place"));
            let provides = format!("package {number} is not used, and what it provides");
            self.zero(layout.provides_at(number), layout.bit_bytes(), &provides);
            return;
        }
        if self.valid_aid(at, &format!("the AID of {}", self.named(number))) {
            let same = self.image.package_with(self.image.aid_place(at));
            if let Some(other) = same.filter(|other| *other < number) {
                self.say(at, format!("{} has the AID of package {other}", self.named(number)));
            }
        }
    }

    fn services(&mut self, package: usize) {
        for number in 0..self.image.layout.services {
            let at = self.image.layout.tokens_at(package, number);
            if !self.provides(package, number) {
                let what = format!("{} does not provide service {number}, and the tokens' place", self.named(package));
                self.zero(at, 2, &what);
                continue;
            }
            self.method(at + 1, &format!("service {number} of {}", self.named(package)));
            let same = self.image.service_with(package, self.image.tokens(at));
            if let Some(other) = same.filter(|other| *other < number) {
                let (package, other) = (self.named(package), self.service(package, other));
                self.say(at, format!("service {number} of {package} has the tokens of {other}"));
            }
        }
    }

    /// A card of version 01 may come from earlier rules, and then nothing is damaged.
    fn method(&mut self, at: usize, whose: &str) {
        let (method, most) = (self.image.bytes[at], Tokens::MOST_METHOD);
        if method > most {
            let since = format!(": since R-7 method tokens stop at {most}, and a card made before may hold more");
            let since = if self.image.layout.tokens_wait { "" } else { &since };
            self.say(at, format!("{whose} has the method token {method}, not 0 to {most}{since}"));
        }
    }

    /// The rows of bits of a row and a column in calls, grants and needs.
    fn cells(&mut self, row: usize, column: usize) {
        let image = self.image;
        for table in Table::ALL {
            let (at, name) = (image.layout.cell_at(table, row, column), table.name());
            let field = image.cell(table, row, column);
            let callee = if table == Table::Grants { row } else { column };
            if field == 0 {
                continue;
            }
            if row == column {
                self.say(at, format!("{name}: {} has bits for itself", self.named(row)));
            } else if let Some(unused) = [row, column].into_iter().find(|&number| !image.used(number)) {
                self.say(at, format!("{name}: package {unused} is not used, and has bits"));
            } else if let Some(bit) = bits(field & !image.provides(callee)).next() {
                let callee = self.named(callee);
                self.say(at, format!("{name}: {callee} does not provide service {bit}, and its bit is set"));
            }
        }
        let (called, needed) = (image.cell(Table::Calls, row, column), image.cell(Table::Needs, row, column));
        if let Some(bit) = bits(needed & !called).next() {
            let (service, callee) = (self.service(column, bit), self.named(column));
            let words = format!("needs: {} does not call {service} of {callee}, which it needs", self.named(row));
            self.say(image.layout.cell_at(Table::Needs, row, column), words);
        }
        if let Some(bit) = bits(called & !image.cell(Table::Grants, column, row)).next() {
            let (caller, service) = (self.named(row), self.service(column, bit));
            let words = format!("calls: {} does not grant {caller} its {service}", self.named(column));
            self.say(image.layout.cell_at(Table::Calls, row, column), words);
        }
    }

    fn unmet(&mut self) {
        let layout = self.image.layout;
        for at in self.list(layout.unmet_at(), layout.unmet_row(), "unmet call") {
            let caller = usize::from(self.image.bytes[at + AID + 2]);
            self.method(at + AID + 1, "the unmet call");
            if !self.valid_aid(at, "the callee's AID") {
                continue;
            }
            let callee = self.installed(at);
            if !self.image.used(caller) {
                self.say(at + AID + 2, format!("the caller is package {caller}, which is not used"));
            } else if callee == Some(caller) {
                self.say(at, format!("{} calls itself", self.named(caller)));
            }
            let provided = callee.and_then(|callee| Some((callee, self.provided(at + AID, callee)?)));
            if let Some((callee, service)) = provided {
                let service = format!("{} of {}", self.service(callee, service), self.named(callee));
                self.say(at, format!("{service} is provided on the card, and the call is said to be unmet"));
            }
        }
    }

    fn waiting(&mut self) {
        let layout = self.image.layout;
        for at in self.list(layout.waiting_at(), layout.waiting_row(), "waiting grant") {
            let callee = usize::from(self.image.bytes[at + AID]);
            let caller = if self.valid_aid(at, "the caller's AID") { self.installed(at) } else { None };
            if layout.tokens_wait {
                self.method(at + AID + 2, "the waiting grant");
            }
            if !self.image.used(callee) {
                self.say(at + AID, format!("the callee is package {callee}, which is not used"));
                continue;
            }
            let service = match layout.tokens_wait {
                true => self.provided(at + AID + 1, callee),
                false => self.numbered(at + AID + 1, callee),
            };
            match (caller, service) {
                (Some(caller), _) if caller == callee => {
                    self.say(at, format!("{} grants to itself", self.named(callee)));
                }
                (Some(caller), Some(service)) => {
                    let (caller, service) = (self.named(caller), self.service(callee, service));
                    let words = format!("the caller is {caller} and {service} of {} is provided", self.named(callee));
                    self.say(at, format!("{words}, and the grant is said to wait"));
                }
                _ => {}
            }
        }
    }

    /// The number of the package whose AID stands here.
    fn installed(&self, at: usize) -> Option<usize> {
        self.image.package_with(self.image.aid_place(at))
    }

    /// The number of the package's service whose tokens stand here.
    fn provided(&self, at: usize, package: usize) -> Option<usize> {
        self.image.service_with(package, self.image.tokens(at))
    }

    /// The number of a service that stands here, in version 01. The package provides it.
    fn numbered(&mut self, at: usize, package: usize) -> Option<usize> {
        let service = usize::from(self.image.bytes[at]);
        let provided = self.provides(package, service);
        if !provided {
            self.say(at, format!("{} does not provide service {service}", self.named(package)));
        }
        provided.then_some(service)
    }

    /// The places of the rows that a list holds. Its count, the places past it and repeated rows are
    /// looked at here.
    fn list(&mut self, start: usize, size: usize, what: &str) -> Vec<usize> {
        let (count, most) = (usize::from(self.image.bytes[start]), self.image.layout.rows);
        if count > most {
            self.say(start, format!("the count is {count}, a list has at most {most} rows"));
            return Vec::new();
        }
        let places: Vec<usize> = (0..most).map(|row| start + 1 + size * row).collect();
        for &past in &places[count..] {
            self.zero(past, size, &format!("the list has {}, and the place past that", counted(count, "row")));
        }
        let bytes = self.image.bytes;
        for (number, &at) in places[..count].iter().enumerate() {
            let same = |other: &usize| bytes[*other..][..size] == bytes[at..][..size];
            if let Some(other) = places[..number].iter().position(same) {
                self.say(at, format!("{what} {number} is {what} {other} again"));
            }
        }
        places[..count].to_vec()
    }

    /// Whether a length and the fill after it are right.
    fn valid_aid(&mut self, at: usize, what: &str) -> bool {
        let length = usize::from(self.image.bytes[at]);
        if !(Aid::LEAST..=Aid::MOST).contains(&length) {
            self.say(at, format!("{what} has the length {length}, not {} to {}", Aid::LEAST, Aid::MOST));
            return false;
        }
        self.zero(at + 1 + length, AID - 1 - length, &format!("{what} has {length} bytes, and the fill after them"));
        true
    }

    /// Says the first byte of a part that is not zero.
    fn zero(&mut self, at: usize, length: usize, what: &str) {
        if let Some(past) = self.image.bytes[at..at + length].iter().position(|byte| *byte != 0) {
            let byte = self.image.bytes[at + past];
            self.say(at + past, format!("{what} is not zero but {byte:02X}"));
        }
    }
}
