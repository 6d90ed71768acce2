//! A card's sizes as a value: where things are in an image, and how much a record may have.

/// Images and records of one sort of card.
#[derive(Debug, PartialEq, Eq)]
pub struct Layout {
    /// What the tool calls it.
    pub version: &'static str,
    /// Which card it is: small or large.
    pub name: &'static str,
    /// Length and version, with which an image begins.
    pub header: [u8; 3],
    /// Package numbers.
    pub packages: usize,
    /// Service numbers of a package, and the most services that a record provides.
    pub services: usize,
    /// Rows of each of the two lists.
    pub rows: usize,
    /// Whether a waiting grant holds its service's tokens. In version 01 it holds the service's number.
    pub tokens_wait: bool,
    /// The version byte of records.
    pub record: u8,
    /// The most rows of calls, of grants and of needs in a record.
    pub record_rows: usize,
    /// The bytes of the count of each of these three. Other lists of records have a count byte.
    pub count_bytes: usize,
    /// The most callers of kind 3.
    pub record_callers: usize,
    /// Bytes of the longest record.
    pub longest_record: usize,
}

/// The large card.
pub const VERSION_03: Layout = Layout {
    version: "03",
    name: "large",
    header: [0x0E, 0x37, 0x03],
    packages: 16,
    services: 16,
    rows: 32,
    tokens_wait: true,
    record: 2,
    record_rows: 272,
    count_bytes: 2,
    record_callers: 32,
    longest_record: 15_564,
};
/// The small card.
pub const VERSION_02: Layout = Layout { version: "02", header: [0x04, 0x56, 0x02], tokens_wait: true, ..VERSION_01 };
/// The card of document 01, which is converted.
pub const VERSION_01: Layout = Layout {
    version: "01",
    name: "small",
    header: [0x04, 0x46, 0x01],
    packages: 8,
    services: 8,
    rows: 16,
    tokens_wait: false,
    record: 1,
    record_rows: 72,
    count_bytes: 1,
    record_callers: 32,
    longest_record: 4145,
};

/// The place of an AID: its length byte, its bytes and zero fill.
pub const AID: usize = 17;
/// The place of the used field, after the header.
pub const USED: usize = 3;

/// Which of the three tables of bits.
#[derive(Clone, Copy, Debug, PartialEq, Eq)]
pub enum Table {
    /// Row the caller, column the callee.
    Calls,
    /// Row the callee, column the caller.
    Grants,
    /// As calls.
    Needs,
}

impl Table {
    pub const ALL: [Table; 3] = [Table::Calls, Table::Grants, Table::Needs];

    pub fn name(self) -> &'static str {
        match self {
            Table::Calls => "calls",
            Table::Grants => "grants",
            Table::Needs => "needs",
        }
    }
}

impl Layout {
    pub const ALL: [&'static Layout; 3] = [&VERSION_02, &VERSION_03, &VERSION_01];
    /// The cards that records are judged on.
    pub const CARDS: [&'static Layout; 2] = [&VERSION_02, &VERSION_03];

    /// Whether records are judged on such an image. One of version 01 is converted first.
    pub fn judged(&self) -> bool {
        *self != VERSION_01
    }

    pub fn is_large(&self) -> bool {
        *self == VERSION_03
    }

    /// The card whose records have this version byte.
    pub fn of_records(version: u8) -> Option<&'static Layout> {
        Layout::CARDS.into_iter().find(|card| card.record == version)
    }

    /// The layout whose images have so many bytes.
    pub fn sized(bytes: usize) -> Option<&'static Layout> {
        Layout::ALL.into_iter().find(|layout| layout.size() == bytes)
    }

    /// Bytes of the used field.
    pub fn used_bytes(&self) -> usize {
        self.packages / 8
    }

    /// Bytes of a row of bits, one for each service.
    pub fn bit_bytes(&self) -> usize {
        self.services / 8
    }

    pub fn aid_at(&self, package: usize) -> usize {
        USED + self.used_bytes() + AID * package
    }

    pub fn tokens_at(&self, package: usize, service: usize) -> usize {
        self.aid_at(self.packages) + 2 * (self.services * package + service)
    }

    pub fn provides_at(&self, package: usize) -> usize {
        self.tokens_at(self.packages, 0) + self.bit_bytes() * package
    }

    pub fn cell_at(&self, table: Table, row: usize, column: usize) -> usize {
        let before = (table as usize * self.packages + row) * self.packages + column;
        self.provides_at(self.packages) + self.bit_bytes() * before
    }

    /// The count of unmet calls; the rows follow it.
    pub fn unmet_at(&self) -> usize {
        self.provides_at(self.packages) + self.bit_bytes() * 3 * self.packages * self.packages
    }

    /// Callee AID, tokens, caller number.
    pub fn unmet_row(&self) -> usize {
        AID + 3
    }

    /// The count of waiting grants; the rows follow it.
    pub fn waiting_at(&self) -> usize {
        self.unmet_at() + 1 + self.unmet_row() * self.rows
    }

    /// Caller AID, callee number, and tokens or a service number.
    pub fn waiting_row(&self) -> usize {
        AID + if self.tokens_wait { 3 } else { 2 }
    }

    /// Bytes of an image.
    pub fn size(&self) -> usize {
        self.waiting_at() + 1 + self.waiting_row() * self.rows
    }
}

/// An image of a layout's size: its places, whatever they hold.
#[derive(Clone, Copy)]
pub struct Image<'a> {
    pub layout: &'static Layout,
    pub bytes: &'a [u8],
}

impl<'a> Image<'a> {
    /// `None` when no layout has this size.
    pub fn new(bytes: &'a [u8]) -> Option<Image<'a>> {
        Some(Image { layout: Layout::sized(bytes.len())?, bytes })
    }

    /// A field of bits, the high byte first.
    fn field(&self, at: usize, bytes: usize) -> u32 {
        self.bytes[at..at + bytes].iter().fold(0, |field, byte| field << 8 | u32::from(*byte))
    }

    pub fn used(&self, package: usize) -> bool {
        package < self.layout.packages && self.field(USED, self.layout.used_bytes()) >> package & 1 == 1
    }

    /// The used package numbers, upwards.
    pub fn packages(self) -> impl Iterator<Item = usize> + 'a {
        (0..self.layout.packages).filter(move |package| self.used(*package))
    }

    /// The place of an AID: its length, its bytes, fill.
    pub fn aid_place(&self, at: usize) -> &'a [u8] {
        &self.bytes[at..at + AID]
    }

    /// The number of the package whose AID's place is the same as this one.
    pub fn package_with(&self, place: &[u8]) -> Option<usize> {
        self.packages().find(|&package| self.aid_place(self.layout.aid_at(package)) == place)
    }

    /// The services that a package provides, a bit for each.
    pub fn provides(&self, package: usize) -> u32 {
        self.field(self.layout.provides_at(package), self.layout.bit_bytes())
    }

    pub fn cell(&self, table: Table, row: usize, column: usize) -> u32 {
        self.field(self.layout.cell_at(table, row, column), self.layout.bit_bytes())
    }

    /// The two bytes of a service's tokens.
    pub fn tokens(&self, at: usize) -> [u8; 2] {
        [self.bytes[at], self.bytes[at + 1]]
    }

    /// The number of a package's service with these tokens.
    pub fn service_with(&self, package: usize, tokens: [u8; 2]) -> Option<usize> {
        bits(self.provides(package)).find(|&service| self.tokens(self.layout.tokens_at(package, service)) == tokens)
    }
}

/// The numbers of the bits set, upwards.
pub fn bits(field: u32) -> impl Iterator<Item = usize> {
    (0..32).filter(move |bit| field >> bit & 1 == 1)
}

#[cfg(test)]
mod tests {
    use super::*;

    #[test]
    fn the_places_are_document_01s() {
        for (layout, size) in [(&VERSION_01, 1094), (&VERSION_02, 1110)] {
            let tables = Table::ALL.map(|table| layout.cell_at(table, 0, 0));
            assert_eq!((layout.aid_at(0), layout.tokens_at(0, 0), layout.provides_at(0)), (4, 140, 268));
            assert_eq!((tables, layout.unmet_at(), layout.waiting_at()), ([276, 340, 404], 468, 789));
            assert_eq!(layout.size(), size);
            assert_eq!(usize::from(u16::from_be_bytes([layout.header[0], layout.header[1]])), size);
            assert_eq!(Layout::sized(size), Some(layout));
        }
        assert_eq!(Layout::sized(1095), None);
    }

    /// R-9's sizes give R-9's 3,639 bytes, `0E 37`.
    #[test]
    fn the_large_card_has_the_same_order_of_parts() {
        let large = &VERSION_03;
        let tables = Table::ALL.map(|table| large.cell_at(table, 0, 0));
        assert_eq!((large.aid_at(0), large.tokens_at(0, 0), large.provides_at(0)), (5, 277, 789));
        assert_eq!((tables, large.unmet_at(), large.waiting_at()), ([821, 1333, 1845], 2357, 2998));
        assert_eq!((large.size(), Layout::sized(3639)), (3639, Some(large)));
        assert_eq!(u16::from_be_bytes([large.header[0], large.header[1]]), 3639);
    }

    /// A load with as many services and rows as there may be, and AIDs of 16 bytes.
    #[test]
    fn the_longest_records_are_the_papers() {
        for card in Layout::CARDS {
            let lists = 3 * (card.count_bytes + card.record_rows * (AID + 2));
            assert_eq!(4 + AID + 1 + 2 * card.services + lists, card.longest_record);
        }
    }
}
