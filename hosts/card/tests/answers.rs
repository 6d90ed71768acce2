//! What the wrapper answers, through its public functions alone, on both cards: each entry on small inputs, each refusal,
//! each size that is off by one, no bytes at all, and that a refusal leaves what was lent.

use card::exact::{self, Verdict};
use card::{Refusal, IMAGE_SIZE, LARGE_IMAGE_SIZE, LARGE_RECORD_SIZE, OLD_IMAGE_SIZE, RECORD_SIZE};

/// The AID F0000000xx with its length, as records have it.
fn aid(last: u8) -> [u8; 6] {
    [5, 0xF0, 0, 0, 0, last]
}

/// A service of a package: the AID's last byte, interface and method.
type Row = (u8, u8, u8);

/// A row as records have it.
fn service((other, interface, method): Row) -> [u8; 8] {
    let [length, a, b, c, d, e] = aid(other);
    [length, a, b, c, d, e, interface, method]
}

/// A card, and how its records are written.
struct Card {
    image_size: usize,
    record_size: usize,
    /// The version byte of its records.
    version: u8,
    /// Bytes of a count of calls, grants or needs.
    count_bytes: usize,
    /// Package numbers, and services of each package.
    numbers: u8,
    /// Rows of each list of the card.
    listed: u8,
    /// Rows of calls, of grants and of needs in a record.
    rows: usize,
}

const SMALL: Card = Card {
    image_size: IMAGE_SIZE,
    record_size: RECORD_SIZE,
    version: 1,
    count_bytes: 1,
    numbers: 8,
    listed: 16,
    rows: 72,
};
const LARGE: Card = Card {
    image_size: LARGE_IMAGE_SIZE,
    record_size: LARGE_RECORD_SIZE,
    version: 2,
    count_bytes: 2,
    numbers: 16,
    listed: 32,
    rows: 272,
};
const CARDS: [Card; 2] = [SMALL, LARGE];

impl Card {
    fn record(&self, kind: u8, own: u8, rest: &[u8]) -> Vec<u8> {
        let mut record = [&[0, 0, self.version, kind][..], &aid(own), rest].concat();
        let length = u16::try_from(record.len()).expect("a length");
        record[..2].copy_from_slice(&length.to_be_bytes());
        record
    }

    /// A count of calls, grants or needs.
    fn count(&self, count: usize) -> Vec<u8> {
        count.to_be_bytes()[8 - self.count_bytes..].to_vec()
    }

    /// A whole contract: of kind 1, a load; of kind 11, in place of another.
    fn contract(&self, kind: u8, own: u8, provides: &[[u8; 2]], rows: [&[Row]; 3]) -> Vec<u8> {
        let mut rest = vec![provides.len() as u8];
        rest.extend(provides.concat());
        for list in rows {
            rest.extend(self.count(list.len()));
            rest.extend(list.iter().flat_map(|row| service(*row)));
        }
        self.record(kind, own, &rest)
    }

    fn load(&self, own: u8, provides: &[[u8; 2]], calls: &[Row], grants: &[Row], needs: &[Row]) -> Vec<u8> {
        self.contract(1, own, provides, [calls, grants, needs])
    }

    /// Package 1 provides 0.0 and grants it to package 2.
    fn server(&self) -> Vec<u8> {
        self.load(1, &[[0, 0]], &[], &[(2, 0, 0)], &[])
    }

    /// Package 2 calls and needs it.
    fn caller(&self) -> Vec<u8> {
        self.load(2, &[], &[(1, 0, 0)], &[], &[(1, 0, 0)])
    }

    fn empty(&self) -> Vec<u8> {
        let mut image = vec![0xA5; self.image_size];
        assert_eq!(card::empty(&mut image), Ok(()));
        image
    }

    /// A card with the records on it, which are all accepted.
    fn with(&self, records: &[Vec<u8>]) -> Vec<u8> {
        let mut image = self.empty();
        for record in records {
            card::judge(&mut image, record).expect("accepted");
        }
        image
    }
}

/// A record is refused, and the image stays; the numbers say the same.
fn refused(image: &[u8], record: &[u8], refusal: Refusal) {
    let mut after = image.to_vec();
    assert_eq!(card::judge(&mut after, record), Err(refusal));
    assert_eq!(exact::judge(&mut after, record), Verdict { answer: refusal.number(), second: 255 });
    assert_eq!(after, image);
}

#[test]
fn every_kind_is_accepted() {
    for card in CARDS {
        let mut image = card.empty();
        assert_eq!(card::check(&image), Ok(0));
        assert_eq!(exact::check(&image), Verdict { answer: 0, second: 0 });
        let steps = [
            (card.server(), 0, 1),
            (card.caller(), 1, 2),
            (card.record(3, 1, &[7, 127, 0]), 0, 2),
            (card.record(7, 1, &service((3, 7, 127))), 0, 2),
            (card.record(5, 2, &service((9, 255, 0))), 1, 2),
            (card.record(6, 2, &service((9, 255, 0))), 1, 2),
            (card.record(8, 1, &service((3, 7, 127))), 0, 2),
            (card.record(4, 1, &[7, 127]), 0, 2),
            (card.contract(11, 2, &[], [&[(1, 0, 0)], &[], &[]]), 1, 2),
            (card.record(2, 1, &[]), 0, 1),
        ];
        for (record, number, packages) in steps {
            assert_eq!(card::judge(&mut image, &record), Ok(number), "kind {}", record[3]);
            assert_eq!(card::check(&image), Ok(packages), "kind {}", record[3]);
        }
    }
}

#[test]
fn each_cause_of_judging_is_met() {
    for card in CARDS {
        let image = card.with(&[card.server(), card.caller()]);
        let mut damaged = image.clone();
        damaged[2] = 1;
        refused(&damaged, &card.server(), Refusal::Unsound);
        refused(&image, &card.record(9, 2, &service((1, 0, 0))), Refusal::Malformed);
        refused(&image, &card.record(3, 1, &[0, 128, 0]), Refusal::Malformed);
        refused(&image, &card.load(3, &[[0, 0], [0, 0]], &[], &[], &[]), Refusal::Contradictory);
        refused(&image, &card.server(), Refusal::Installed);
        refused(&image, &card.record(2, 3, &[]), Refusal::NotInstalled);
        refused(&image, &card.record(7, 1, &service((2, 0, 0))), Refusal::Pointless);
        refused(&image, &card.load(3, &[], &[(1, 0, 0)], &[], &[]), Refusal::Ungranted);
        refused(&image, &card.record(2, 1, &[]), Refusal::NeedUnmet);
        let rows: Vec<Row> = (0..=card.listed).map(|method| (99, 0, method)).collect();
        refused(&image, &card.load(3, &[], &rows, &[], &[]), Refusal::UnmetFull);
        refused(&image, &card.load(3, &[], &[], &rows, &[]), Refusal::WaitingFull);
        card.with(&[card.load(1, &[], &rows[1..], &rows[1..], &[])]);
    }
}

#[test]
fn a_card_has_its_numbers() {
    for card in CARDS {
        let services: Vec<[u8; 2]> = (0..card.numbers).map(|method| [0, method]).collect();
        let packages: Vec<_> = (1..=card.numbers).map(|own| card.load(own, &services, &[], &[], &[])).collect();
        let image = card.with(&packages);
        assert_eq!(card::check(&image), Ok(card.numbers.into()));
        refused(&image, &card.load(99, &[], &[], &[], &[]), Refusal::NoNumber);
        refused(&image, &card.record(3, 1, &[1, 0, 0]), Refusal::NoNumber);
        let mut buffer = vec![0; card.record_size];
        let last = usize::from(card.numbers - 1);
        assert_eq!(card::read_out(&image, last as u32, &mut buffer), Ok(&packages[last][..]));
    }
}

/// A record of the other card's version gets 2, whatever it says; the AID is found in either.
#[test]
fn a_record_is_for_one_card() {
    for (card, other) in [(SMALL, LARGE), (LARGE, SMALL)] {
        for record in [other.server(), other.record(2, 1, &[]), other.record(3, 1, &[0, 0, 0])] {
            refused(&card.empty(), &record, Refusal::Malformed);
            refused(&card.with(&[card.server()]), &record, Refusal::Malformed);
            assert_eq!(card::aid(&record), &aid(1)[1..]);
        }
        let mut neither = card.server();
        neither[2] = 3;
        refused(&card.empty(), &neither, Refusal::Malformed);
        assert_eq!(card::aid(&neither), []);
    }
}

#[test]
fn an_image_is_checked_and_written_at_its_size_alone() {
    for (card, size) in
        CARDS.iter().flat_map(|card| [0, card.image_size - 1, card.image_size + 1].map(|size| (card, size)))
    {
        let mut image = vec![0xA5; size];
        assert_eq!(card::empty(&mut image), Err(Refusal::Unsound));
        assert_eq!(exact::empty(&mut image), Verdict { answer: 1, second: 255 });
        assert_eq!(image, vec![0xA5; size]);
        image = card.empty().into_iter().chain([0]).take(size).collect();
        assert_eq!(card::check(&image), Err(Refusal::Unsound));
        assert_eq!(exact::check(&image), Verdict { answer: 1, second: 255 });
        refused(&image, &card.server(), Refusal::Unsound);
        assert_eq!(card::read_out(&image, 0, &mut [0; LARGE_RECORD_SIZE]), Err(Refusal::Unsound));
    }
    // The header of the other card.
    for (card, other) in [(SMALL, LARGE), (LARGE, SMALL)] {
        let mut image = card.empty();
        image[..3].copy_from_slice(&other.empty()[..3]);
        assert_eq!(card::check(&image), Err(Refusal::Unsound));
    }
}

/// A converter takes an image of one size into a buffer of another, and nothing else: what is given is the image.
fn carried_at_its_sizes_alone(
    meaning: impl Fn(&[u8], &mut [u8]) -> Result<(), Refusal>,
    exactly: impl Fn(&[u8], &mut [u8]) -> Verdict,
    before: &[u8],
    after: usize,
) -> Vec<u8> {
    let (size, longer) = (before.len(), [before, &[0]].concat());
    let mut image = vec![0xA5; after + 1];
    for (from, to) in
        [(0, 0), (0, after), (size, 0), (size - 1, after), (size + 1, after), (size, after - 1), (size, after + 1)]
    {
        assert_eq!(meaning(&longer[..from], &mut image[..to]), Err(Refusal::Unsound), "{from} to {to}");
        assert_eq!(exactly(&longer[..from], &mut image[..to]), Verdict { answer: 1, second: 255 }, "{from} to {to}");
        assert_eq!(image, vec![0xA5; after + 1], "{from} to {to}");
    }
    assert_eq!(exactly(before, &mut image[..after]), Verdict { answer: 0, second: 0 });
    let first = image.clone();
    assert_eq!(meaning(before, &mut image[..after]), Ok(()));
    assert_eq!(image, first);
    assert_eq!(image.pop(), Some(0xA5));
    image
}

#[test]
fn an_old_image_is_converted_at_its_size_alone() {
    let mut old = [0; OLD_IMAGE_SIZE];
    old[..3].copy_from_slice(&[0x04, 0x46, 0x01]);
    assert_eq!(card::check(&old), Err(Refusal::Unsound));
    assert_eq!(carried_at_its_sizes_alone(card::convert, exact::convert, &old, IMAGE_SIZE), SMALL.empty());
    // It goes to the small card alone.
    assert_eq!(card::convert(&old, &mut [0; LARGE_IMAGE_SIZE]), Err(Refusal::Unsound));
    assert_eq!(card::enlarge(&old, &mut [0; LARGE_IMAGE_SIZE]), Err(Refusal::Unsound));
}

/// What is judged before the card is enlarged is the same as what is judged afterwards.
#[test]
fn a_small_image_is_enlarged_at_its_size_alone() {
    let carried = |image: &[u8]| carried_at_its_sizes_alone(card::enlarge, exact::enlarge, image, LARGE_IMAGE_SIZE);
    assert_eq!(carried(&SMALL.empty()), LARGE.empty());
    let rows: Vec<Row> = (0..16).map(|method| (9, 0, method)).collect();
    let history = |card: &Card| {
        let listed = card.load(3, &[], &rows, &rows, &[]);
        [card.load(4, &[], &[], &[], &[]), card.server(), card.caller(), listed, card.record(2, 4, &[])]
    };
    let small = SMALL.with(&history(&SMALL));
    let mut large = carried(&small);
    assert_eq!(large, LARGE.with(&history(&LARGE)));
    assert_eq!(card::judge(&mut large, &LARGE.record(5, 3, &service((9, 1, 0)))), Ok(3));
    // One that is not sound, and a large one, are not enlarged.
    let mut damaged = small;
    damaged[2] = 1;
    for image in [&damaged, &large] {
        assert_eq!(card::enlarge(image, &mut [0; LARGE_IMAGE_SIZE]), Err(Refusal::Unsound));
    }
}

#[test]
fn a_record_has_the_length_that_it_says() {
    for card in CARDS {
        let whole = card.server();
        for wrong in [vec![], whole[..whole.len() - 1].to_vec(), [&whole[..], &[0]].concat()] {
            refused(&card.empty(), &wrong, Refusal::Malformed);
            assert_eq!(card::aid(&wrong), []);
        }
        assert_eq!(card::aid(&whole), &aid(1)[1..]);
        assert_eq!(exact::aid(&whole), card::aid(&whole));
        assert_eq!(card::aid(&whole).as_ptr(), whole[5..].as_ptr());
    }
}

#[test]
fn a_contract_is_read_out_into_a_buffer_that_holds_it() {
    for card in CARDS {
        let image = card.with(&[card.server(), card.caller()]);
        let record = card.caller();
        for size in [0, record.len() - 1] {
            let mut buffer = vec![0xA5; size];
            assert_eq!(card::read_out(&image, 1, &mut buffer), Err(Refusal::BufferShort));
            assert_eq!(exact::read_out(&image, 1, &mut buffer), Verdict { answer: 12, second: 0 });
            assert_eq!(buffer, vec![0xA5; size]);
        }
        for more in [0, 1] {
            let mut buffer = vec![0xA5; record.len() + more];
            assert_eq!(card::read_out(&image, 1, &mut buffer), Ok(&record[..]));
            assert_eq!(buffer[record.len()..], vec![0xA5; more]);
        }
        let mut buffer = vec![0xA5; card.record_size];
        for number in [2, 7, 8, 15, 16, 65_536, u32::MAX] {
            assert_eq!(card::read_out(&image, number, &mut buffer), Err(Refusal::NotInstalled), "{number}");
            assert_eq!(exact::read_out(&image, number, &mut []), Verdict { answer: 5, second: 0 }, "{number}");
        }
        assert_eq!(buffer, vec![0xA5; card.record_size]);
        let rows: Vec<Row> = (0..card.listed).map(|method| (99, 0, method)).collect();
        let long = card.load(1, &[], &rows, &rows, &[]);
        assert!(long.len() > 255);
        assert_eq!(card::read_out(&card.with(std::slice::from_ref(&long)), 0, &mut buffer), Ok(&long[..]));
    }
}

/// As many services as there may be, and as many calls, grants and needs with AIDs of 16 bytes. They are all the same: the
/// record is well formed and contradicts itself.
#[test]
fn the_longest_record_is_read() {
    for card in CARDS {
        let row = [&[16][..], &[0xF0; 16], &[0; 2]].concat();
        let longest = |rows: usize| {
            let rows = [card.count(rows), row.repeat(rows)].concat();
            let services = vec![0; 2 * usize::from(card.numbers)];
            let rest = [&[16][..], &[0xF0; 16], &[card.numbers], &services, &rows, &rows, &rows].concat();
            let [high, low] = (rest.len() as u16 + 4).to_be_bytes();
            [&[high, low, card.version, 1][..], &rest].concat()
        };
        let record = longest(card.rows);
        assert_eq!(record.len(), card.record_size);
        assert_eq!(card::aid(&record), [0xF0; 16]);
        refused(&card.empty(), &record, Refusal::Contradictory);
        let more = longest(card.rows + 1);
        assert_eq!(card::aid(&more), []);
        refused(&card.empty(), &more, Refusal::Malformed);
    }
}

#[test]
fn no_bytes_at_all_are_fine_for_each_function() {
    assert_eq!(card::check(&[]), Err(Refusal::Unsound));
    assert_eq!(card::empty(&mut []), Err(Refusal::Unsound));
    assert_eq!(card::convert(&[], &mut []), Err(Refusal::Unsound));
    assert_eq!(card::enlarge(&[], &mut []), Err(Refusal::Unsound));
    assert_eq!(card::judge(&mut [], &[]), Err(Refusal::Unsound));
    assert_eq!(card::read_out(&[], 0, &mut []), Err(Refusal::Unsound));
    for card in CARDS {
        assert_eq!(card::judge(&mut card.empty(), &[]), Err(Refusal::Malformed));
        assert_eq!(card::read_out(&card.empty(), 0, &mut []), Err(Refusal::NotInstalled));
    }
    assert_eq!(card::aid(&[]), []);
}

#[test]
fn each_refusal_has_its_number_and_words() {
    let words = [
        "1: the image is not sound, or has not a card's size",
        "2: the record is malformed",
        "3: the record contradicts itself",
        "4: the package is installed",
        "5: the package is not installed",
        "6: the contract has what is added, or lacks what is removed",
        "7: no package or service number is free",
        "8: a met call would stand without its grant",
        "9: a need would be unmet",
        "10: too many unmet calls",
        "11: too many waiting grants",
        "12: the buffer is shorter than the record",
    ];
    assert_eq!(Refusal::ALL.map(|refusal| refusal.to_string()), words);
    for (number, refusal) in (1..).zip(Refusal::ALL) {
        assert_eq!((refusal.number(), Refusal::of(number)), (number, Some(refusal)));
        assert_eq!(refusal.to_string(), format!("{number}: {}", refusal.words()));
    }
    for number in [0, 13, 255, 65_537, u32::MAX] {
        assert_eq!(Refusal::of(number), None, "{number}");
    }
}

#[test]
fn a_refusal_is_an_error_that_threads_may_pass_on() {
    fn fails() -> Result<u32, Box<dyn std::error::Error + Send + Sync>> {
        Ok(card::check(&[])?)
    }
    let fault = std::thread::spawn(fails).join().expect("a thread").expect_err("a fault");
    assert_eq!(fault.downcast_ref(), Some(&Refusal::Unsound));
}

#[test]
fn the_archive_says_what_it_was_proved_with() {
    assert!(card::LOGIC.len() == 16 && card::LOGIC.bytes().all(|digit| digit.is_ascii_hexdigit()), "{}", card::LOGIC);
}
