//! The cards: which lengths are good, the grams, and the card's way with its version.

use straight::calendar::LAST_DAY;
use straight::layout::*;
use straight::{grams, is_card, is_fit, line, read, refresh, setup, take, tick, write, Reading, Refusal, Written, WORDS};

/// The bits of 1 and of 2,000 millimetres.
const ONE: u32 = 1_065_353_216;
const MOST: u32 = 0x44FA_0000;

const GOOD: [f32; 9] =
    [1.0, 52.0, 0.1, 1_999.999_9, 2_000.0, f32::MIN_POSITIVE, f32::MIN_POSITIVE / 2.0, f32::from_bits(1), f32::EPSILON];
const BAD: [f32; 10] =
    [0.0, -0.0, -1.0, -2_000.0, -f32::MIN_POSITIVE, f32::INFINITY, f32::NEG_INFINITY, f32::NAN, f32::MAX, 2_000.000_2];
/// A subnormal below 0, NaNs of every kind, and the floats next to 2,000 and past the finite ones.
const BAD_BITS: [u32; 8] = [0x8000_0001, MOST + 1, 0x7F80_0000, 0x7F80_0001, 0x7FC0_0000, 0xFF80_0001, 0xFFC0_0000, 0xFFFF_FFFF];

fn bad() -> Vec<u32> {
    BAD.map(f32::to_bits).into_iter().chain(BAD_BITS).collect()
}

fn fresh() -> Vec<u32> {
    let mut book = vec![0; WORDS];
    setup(&mut book, 2, 2, 4, 2, &[0, 1]).unwrap();
    book
}

#[test]
fn lengths() {
    assert_eq!((1.0_f32.to_bits(), 2_000.0_f32.to_bits()), (ONE, MOST));
    for good in GOOD {
        assert!(is_card(good.to_bits(), ONE) && is_card(ONE, good.to_bits()), "{:e}", good);
    }
    for bits in bad() {
        assert!(!is_card(bits, ONE) && !is_card(ONE, bits) && !is_card(bits, bits), "{:08x}", bits);
    }
    assert!(is_card(MOST - 1, MOST) && !is_card(MOST, MOST + 1), "2,000 and the next float");
    assert!(is_card(1, 0x007F_FFFF) && !is_card(0, 1), "subnormals are above 0");
}

#[test]
fn the_grams() {
    let of = |diameter: f32, width: f32| grams(diameter.to_bits(), width.to_bits()).map(f64::to_bits);
    assert_eq!(of(52.0, 15.0), Ok(0x400f_3333_3333_3333));
    assert_eq!(of(47.0, 14.0), Ok(0x400a_51eb_851e_b852));
    assert_eq!(of(19.05, 6.35), Ok(0x3fe3_5ad4_1a5a_ee67));
    assert_eq!(of(15.0, 52.0), of(52.0, 15.0));
    assert_eq!(of(2_000.0, 2_000.0), Ok(20_000_f64.to_bits()));
    assert_eq!(of(1.0, 1.0), Ok(0.005_f64.to_bits()));
    let least = grams(1, 1).unwrap();
    assert!(least > 0.0 && least.is_normal(), "two subnormals of 32 bits: {:e}", least);
    for bits in bad() {
        assert_eq!(grams(bits, ONE), Err(Refusal::BadCard), "{:08x}", bits);
        assert_eq!(grams(ONE, bits), Err(Refusal::BadCard), "{:08x}", bits);
    }
    assert_eq!(Refusal::BadCard as u32, 14);
}

#[test]
fn writes_with_a_bad_card() {
    let mut book = fresh();
    let before = book.clone();
    for bits in bad() {
        assert_eq!(write(&mut book, 0, 0, 20, bits, ONE), Err(Refusal::BadCard), "{:08x}", bits);
        assert_eq!(write(&mut book, 0, 0, 20, ONE, bits), Err(Refusal::BadCard), "{:08x}", bits);
    }
    assert!(book == before, "a refusal moves no word");
    for (stamp, good) in (1..).zip(GOOD) {
        let (diameter, width) = (good.to_bits(), MOST);
        assert_eq!(write(&mut book, 0, 0, 20, diameter, width), Ok(Written { stamp, current: true }), "{:e}", good);
        assert_eq!(read(&mut book, 0, 0), Ok(Reading { value: Some(20), diameter, width, vector: [stamp, 0, 0, 0] }));
        assert!(is_fit(&book));
    }
}

/// The order of a write's checks: 1, 5, 4, 16, 14, 8, 10, 9.
#[test]
fn bad_card_in_its_place() {
    assert_eq!(write(&mut [0; WORDS], 0, 0, 20, 0, ONE), Err(Refusal::BadBook));
    let mut book = fresh();
    assert_eq!(write(&mut book[1..], 0, 0, 20, 0, ONE), Err(Refusal::BadBook));
    assert_eq!(write(&mut book, 2, 4, LAST_DAY + 1, 0, ONE), Err(Refusal::BadCrew));
    assert_eq!(write(&mut book, 0, 4, LAST_DAY + 1, 0, ONE), Err(Refusal::BadKey));
    assert_eq!(write(&mut book, 0, 0, LAST_DAY + 1, 0, ONE), Err(Refusal::BadDate));
    for (diameter, wait, end, full) in
        [(0, Refusal::BadCard, Refusal::BadCard, Refusal::BadCard), (ONE, Refusal::Wait, Refusal::ClockAtEnd, Refusal::LinkFull)]
    {
        let mut book = fresh();
        book[crew_vector(0)] = 1;
        assert_eq!(write(&mut book, 0, 0, LAST_DAY, diameter, ONE), Err(wait));
        let mut book = fresh();
        book[clock(0, 0)] = END;
        assert_eq!(write(&mut book, 0, 0, LAST_DAY, diameter, ONE), Err(end));
        let mut book = fresh();
        (0..16).for_each(|_| assert_eq!(tick(&mut book, 0, 0), Ok(())));
        assert_eq!(write(&mut book, 0, 0, LAST_DAY, diameter, ONE), Err(full));
    }
}

/// From the writer's store over the link to the other depot's, and on to a read there.
#[test]
fn a_card_travels_with_its_version() {
    let (diameter, width) = (19.05_f32.to_bits(), 6.35_f32.to_bits());
    let mut book = fresh();
    write(&mut book, 0, 0, 20, diameter, width).unwrap();
    let copy = slot(link(0, 0, 1), 0);
    assert_eq!(book[copy..][..SLOT], [COPY, 0, 20, diameter, width, 0, 1, 0, 0, 0]);
    assert_eq!(book[stored(0, 0)..][..RECORD], book[copy + 1..][..RECORD]);
    take(&mut book, 1, 0, 0).unwrap();
    tick(&mut book, 0, 1).unwrap();
    take(&mut book, 1, 1, 0).unwrap();
    assert_eq!(read(&mut book, 1, 0), Ok(Reading { value: None, diameter: 0, width: 0, vector: [0; 4] }));
    refresh(&mut book, 1, 0).unwrap();
    assert_eq!(read(&mut book, 1, 0), Ok(Reading { value: Some(20), diameter, width, vector: [1, 0, 0, 0] }));
    assert_eq!(book[stored(1, 0)..][..RECORD], book[stored(0, 0)..][..RECORD]);
}

#[test]
fn a_fit_book_has_good_cards() {
    let mut book = fresh();
    write(&mut book, 0, 0, 20, ONE, MOST).unwrap();
    tick(&mut book, 0, 0).unwrap();
    assert!(is_fit(&book));
    for record in [stored(0, 0), slot(link(0, 0, 1), 0) + 1] {
        for word in [record + DIAMETER, record + WIDTH] {
            for bits in bad() {
                let mut book = book.clone();
                book[word] = bits;
                assert!(!is_fit(&book), "{:08x}", bits);
            }
            for good in GOOD {
                let mut book = book.clone();
                book[word] = good.to_bits();
                assert!(is_fit(&book), "{:e}", good);
            }
        }
    }
    // Nothing of this kind is asked of an unwritten record, a heartbeat or a free slot.
    for unused in [stored(1, 0), stored(0, 1), slot(link(0, 0, 1), 1) + 1, slot(link(0, 0, 1), 2) + 1] {
        let mut book = book.clone();
        book[unused + DIAMETER..=unused + WIDTH].fill(u32::MAX);
        assert!(is_fit(&book));
    }
}

/// An unwritten record may hold anything for a card; a read of it has none.
#[test]
fn an_unwritten_read_has_no_card() {
    let mut book = fresh();
    book[stored(0, 0) + VALUE] = 20;
    book[stored(0, 0) + DIAMETER] = ONE;
    book[stored(0, 0) + WIDTH] = u32::MAX;
    assert_eq!(read(&mut book, 0, 0), Ok(Reading { value: None, diameter: 0, width: 0, vector: [0; 4] }));
    assert_eq!(line(&mut book, b"R 0 0"), "0 - 0 0\n");
}

#[test]
fn lines() {
    let mut book = fresh();
    assert_eq!(line(&mut book, b"W 0 0 20 1112539136 1097859072"), "0 1 C\n");
    assert_eq!((52.0_f32.to_bits(), 15.0_f32.to_bits()), (1_112_539_136, 1_097_859_072));
    assert_eq!(line(&mut book, b"R 0 0"), "0 20 1112539136 1097859072 1 0\n");
    assert_eq!(line(&mut book, b"W 0 0 20 0 1097859072"), "14\n");
    assert_eq!(line(&mut book, b"W 0 0 20 1112539136 2147483648"), "14\n", "0 with a sign");
    assert_eq!(line(&mut book, b"W 0 0 146097 0 0"), "16\n");
    assert_eq!(line(&mut book, b"W 0 0 20"), "13\n", "a line without a card");
    assert_eq!(line(&mut book, b"R 0 0"), "0 20 1112539136 1097859072 1 0\n");
}
