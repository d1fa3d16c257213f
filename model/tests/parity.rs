//! The word: test and encoder against each other, the quick test against the
//! slow one, what one, two or three turned bits do, and the xor law.

use rtcm2_model::bits::Bits;
use rtcm2_model::line::{bits_of_byte, byte_of_bits};
use rtcm2_model::rng::Rng;
use rtcm2_model::samples;
use rtcm2_model::scan::{standing, Cause, Standing};
use rtcm2_model::window;
use rtcm2_model::word::{
    apart, bits_of, data_bits, encode, number_of, remainder, test, Pair, Tested,
};

fn slow_test(window: u32) -> Tested {
    let (word, pair) = apart(window);
    test(&word, pair)
}

/// A window that passes.
fn good_window(rng: &mut Rng) -> u32 {
    let pair = Pair {
        d29: rng.bit(),
        d30: rng.bit(),
    };
    let word = encode(&bits_of(rng.word()), pair);
    let all = [pair.d29, pair.d30].into_iter().chain(word);
    all.fold(0, |sum, bit| sum << 1 | u32::from(bit))
}

#[test]
fn every_byte_goes_both_ways() {
    for byte in 0..=255_u8 {
        match bits_of_byte(byte) {
            Some(bits) => assert_eq!(byte_of_bits(bits), byte),
            None => assert!(byte >> 6 != 1),
        }
    }
}

#[test]
fn encoded_words_pass_and_give_their_data() {
    let mut rng = Rng::named("encoded words");
    for _ in 0..20_000 {
        let window = good_window(&mut rng);
        let (word, pair) = apart(window);
        assert!(test(&word, pair).passed() && window::test(window).passed());
        assert!(test(&word.map(|bit| !bit), turned(pair)).passed());
        let data = number_of(&data_bits(&word, pair));
        assert_eq!(window::data(window), data);
        assert_eq!(encode(&bits_of(data), pair), word);
        let turned_data = data_bits(&word.map(|bit| !bit), turned(pair));
        assert_eq!(number_of(&turned_data), data);
    }
}

fn turned(pair: Pair) -> Pair {
    Pair {
        d29: !pair.d29,
        d30: !pair.d30,
    }
}

#[test]
fn the_quick_test_agrees() {
    let mut rng = Rng::named("quick test");
    for i in 0..32 {
        assert!(!slow_test(1 << i).passed());
        assert_eq!(window::test(1 << i), slow_test(1 << i));
    }
    for round in 0..100_000 {
        let near = good_window(&mut rng) ^ (rng.draw() & rng.draw() & rng.draw()) as u32;
        let window = if round % 2 == 0 {
            near
        } else {
            rng.draw() as u32
        };
        assert_eq!(window::test(window), slow_test(window));
    }
}

#[test]
fn an_odd_remainder_is_an_odd_number_of_turned_bits() {
    let mut rng = Rng::named("odd and even");
    for _ in 0..100_000 {
        let turned = (rng.draw() & rng.draw()) as u32;
        match window::test(good_window(&mut rng) ^ turned) {
            Tested::Passed => assert_eq!(turned.count_ones() % 2, 0),
            Tested::Failed(remainder) => {
                assert!((1..64).contains(&remainder));
                assert_eq!(remainder.count_ones() % 2, turned.count_ones() % 2);
            }
        }
    }
}

#[test]
fn one_two_or_three_turned_bits_never_pass() {
    let mut rng = Rng::named("turned bits");
    for _ in 0..20 {
        let good = good_window(&mut rng);
        for a in 0..32 {
            for b in 0..=a {
                for c in 0..=b {
                    let turned = 1_u32 << a | 1 << b | 1 << c;
                    assert!(!window::test(good ^ turned).passed());
                }
            }
        }
    }
    for a in 0..32 {
        for b in 0..=a {
            assert!(!slow_test(1 << a | 1 << b | 1).passed());
        }
    }
}

/// Turns bits from the chosen word on, one to three in its own window.
fn damage(bits: &mut Bits, rng: &mut Rng, word_at: usize) {
    let count = 1 + rng.place(3);
    let mut places: Vec<usize> = Vec::new();
    while places.len() < count {
        let at = word_at - 2 + rng.place(32);
        if !places.contains(&at) {
            places.push(at);
        }
    }
    for at in places {
        bits.turn(at);
    }
    for at in word_at + 30..bits.len() {
        if rng.below(20) == 0 {
            bits.turn(at);
        }
    }
}

#[test]
fn nothing_begins_where_a_damaged_frame_began() {
    let mut rng = Rng::named("damaged frames");
    for _ in 0..4000 {
        let mut bits = Bits::empty();
        let before = 2 + rng.place(10);
        bits.push_noise(&mut rng, before);
        let frame = samples::any_frame(&mut rng);
        let expected = Standing::Stands(Box::new(frame.after(bits.pair().into())));
        let first = bits.push_frame(&frame);
        assert_eq!(standing(&bits.0, first), expected);
        let word = rng.place(usize::from(frame.n) + 2);
        if word > 0 {
            // The two bits before a later word belong to the word before it.
            damage_inside(&mut bits, &mut rng, first + 30 * word);
        } else {
            damage(&mut bits, &mut rng, first);
        }
        let ruled_out = standing(&bits.0, first);
        assert!(matches!(ruled_out, Standing::RuledOut(_)));
        if let Standing::RuledOut(Cause::Word(failed, _)) = ruled_out {
            assert_eq!(failed, word + 1);
        }
    }
}

/// As `damage`, leaving the two bits before the word alone.
fn damage_inside(bits: &mut Bits, rng: &mut Rng, word_at: usize) {
    let kept = bits.0[word_at - 2..word_at].to_vec();
    loop {
        let mut trial = bits.clone();
        damage(&mut trial, rng, word_at);
        if trial.0[word_at - 2..word_at] == kept[..] {
            *bits = trial;
            return;
        }
    }
}

/// The remainder of a window as a number, D25 highest.
fn left(window: u32) -> u32 {
    let (word, pair) = apart(window);
    let bits = remainder(&word, pair);
    bits.iter().fold(0, |sum, bit| sum * 2 + u32::from(*bit))
}

#[test]
fn worked_remainders() {
    const FIRST: u32 = 0x1986_017F;
    assert_eq!((left(FIRST), left(0xFF37_3FC8)), (0, 0));
    assert_eq!(left(0x1234_5678), 0b101010);
    assert_eq!(left(0xAAAA_AAAA), 0b111111);
    assert_eq!(left(0xB89E_FCD2), 0b010101);
    assert_eq!(left(0xEDCB_A987), 0b101010);
    let turned = [1, 3, 5, 7, 31].map(|bits| left(FIRST ^ (u32::MAX << (32 - bits))));
    assert_eq!(turned, [0b101001, 0b010110, 0b011001, 0b101010, 0b000001]);
}

#[test]
fn the_remainder_of_an_xor() {
    let mut rng = Rng::named("xor of windows");
    for _ in 0..20_000 {
        let (v, w, good) = (rng.draw() as u32, rng.draw() as u32, good_window(&mut rng));
        assert_eq!(left(v ^ w), left(v) ^ left(w));
        assert_eq!(left(!v), left(v));
        assert_eq!(left(v) == 0, window::test(v).passed());
        assert_eq!((left(good ^ v)).count_ones() % 2, v.count_ones() % 2);
    }
}
