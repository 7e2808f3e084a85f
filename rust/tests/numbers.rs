//! Numbers of up to ten bytes (02, 2.10) by the proved library and the plain version: at each of the nine places where one stands, whole, cut,
//! too long and not shortest; set-ups of long ones; and counts of twenty digits in scripts. Long counts on boards are in compare.rs and
//! lists.rs, and in the runs of together.rs.

mod common;

use std::collections::BTreeMap;

use common::numbers::{alone_refused, any_number, bytes_of, set_up_refused, written, Numbers, Place, Sort};
use common::*;
use reference::config::STRONG;
use reference::records::LONGEST_RECORD;
use reference::script::{LONGEST_SCRIPT, ROOM_FOR_TEXT};
use reference::{Call, Config, Field, Kind, Refusal, Tuple};

/// Random numbers at each place, some with nothing behind them.
#[test]
fn at_each_place() {
    let mut dice = Dice::new(30);
    let mut numbers = Numbers::default();
    for place in (0..6_000).flat_map(|_| Place::ALL) {
        let (front, right, behind) = dice.pick(place.rows());
        let number = any_number(&mut dice, right);
        let behind = if dice.one_in(4) { &[] } else { behind };
        numbers.compare(place, front, &number, behind);
    }
    println!(
        "compared {:>7} numbers of one byte to eleven, each in a script and in its record",
        numbers.inputs
    );
    numbers.print();
    numbers.assert_each(100);
}

/// Each byte of numbers of one byte to eleven with each of its values, and so with its top bit and without.
#[test]
fn each_byte_of_a_number() {
    let mut dice = Dice::new(31);
    let mut numbers = Numbers::default();
    for place in Place::ALL {
        let (front, _, behind) = dice.pick(place.rows());
        for (length, at) in (1..=11).flat_map(|length| (0..length).map(move |at| (length, at))) {
            let mut number = bytes_of(&mut dice, length);
            for byte in 0..=255 {
                number[at] = byte;
                numbers.compare(place, front, &number, behind);
            }
        }
    }
    println!("compared {:>7} numbers with one byte of each value", numbers.inputs);
    numbers.print();
}

/// Every cut of numbers of ten bytes, at each place: 2, and whole it is refused by its own rule.
#[test]
fn every_cut_of_ten_bytes() {
    let mut dice = Dice::new(32);
    let mut numbers = Numbers::default();
    for (front, place) in
        Place::ALL.into_iter().flat_map(|place| place.rows().iter().map(move |row| (row.0, place)))
    {
        for value in [1 << 63, u64::MAX, dice.next() | 1 << 63] {
            let number = written(value);
            assert_eq!(number.len(), 10);
            for cut in 0..10 {
                assert_eq!(numbers.compare(place, front, &number[..cut], &[]), 2, "{place:?} {cut}");
            }
            numbers.compare(place, front, &number, &[]);
        }
    }
    println!("compared {:>7} cuts of numbers of ten bytes", numbers.inputs);
}

/// Every cut of the longest record, and every buffer up to its length and beyond.
#[test]
fn the_longest_record() {
    let counts = Tuple::of(&[Field::given(Kind::Count, u64::MAX); 6]);
    let longest = Call::cas(u32::MAX, counts, counts);
    let bytes = record(&longest);
    assert_eq!((bytes.len(), LONGEST_RECORD), (140, 140));
    for cut in 0..=bytes.len() {
        let whole = cut == bytes.len();
        assert_eq!(compare_read(&bytes[..cut], 0), if whole { 0 } else { 2 });
        let text = compare_text(&[&[4, 1, 0], &bytes[..cut]].concat());
        let line = if whole { "1 refused 6\n" } else { "1 refused 2\n" };
        assert_eq!(text, format!("board 4 1 0\n{}tuples 0\n", if cut == 0 { "" } else { line }));
    }
    for room in 0..=bytes.len() + 9 {
        compare_write(&longest, &vec![0xA5; room]);
    }
    println!("compared {:>7} cuts of the longest record, and buffers for it", 2 * bytes.len() + 11);
}

/// What may stand for a number of a set-up: the right one, long ones, and bytes that are none.
fn set_up_numbers(right: u64) -> Vec<Vec<u8>> {
    let long = [right + (1 << 32), right + (1 << 63), u64::MAX].map(written);
    let ten = |last: u8| [&[0xFF; 9][..], &[last]].concat();
    let none =
        [vec![0x80 | right as u8, 0x00], ten(0x00), ten(0x02), ten(0x80), vec![0x84; 5], vec![0x80; 9]];
    [written(right)].into_iter().chain(long).chain(none).collect()
}

/// Set-ups with a long n, t, policy and k, alone and before others that are cut, too long or not shortest.
#[test]
fn set_ups_with_long_numbers() {
    let mut inputs = 0;
    // What came where n, t, the policy or k is long, and those before it are right.
    let mut came: BTreeMap<(usize, usize), usize> = BTreeMap::new();
    let all =
        [&[4][..], &[1], &[2, 3], &[2]].map(|rights| rights.iter().flat_map(|right| set_up_numbers(*right)));
    let [ns, ts, policies, ks] = all.map(Vec::from_iter);
    for (n, t) in ns.iter().flat_map(|n| ts.iter().map(move |t| (n, t))) {
        for (policy, k) in policies.iter().flat_map(|policy| ks.iter().map(move |k| (policy, k))) {
            let numbers = [n, t, policy, k];
            // A number that is cut is the last.
            let cut = numbers.iter().position(|bytes| Sort::of(bytes).0 == Sort::Cut);
            let script =
                numbers[..cut.map_or(4, |last| last + 1)].iter().flat_map(|bytes| bytes.iter().copied());
            let script: Vec<u8> = script.collect();
            let refusal = alone_refused(&compare_text(&script));
            assert_eq!(refusal, set_up_refused(&script).unwrap_or(refusal), "{script:02X?}");
            let sorts = numbers.map(|bytes| Sort::of(bytes).0);
            if let Some(first) = sorts.iter().position(|sort| *sort != Sort::Short) {
                let is_read = first < 3 || *policy == [3];
                let long = usize::from(is_read && sorts[first] == Sort::Long);
                *came.entry((first, refusal)).or_default() += long;
            }
            inputs += 1;
        }
    }
    println!("compared {inputs:>7} set-ups with long numbers: which of them, and what is refused: {came:?}");
    // Behind the policy and k nothing is read; behind the others 2 and 3 come before 1.
    for row in [(0, 1), (0, 2), (0, 3), (1, 1), (1, 2), (1, 3), (2, 1), (3, 1)] {
        assert!(came.get(&row) >= Some(&3), "{row:?}");
    }
}

/// Every set-up at and around its bounds as a script, those among them in which 3t + 1 or (k + 1)t + 1 wraps.
#[test]
fn set_ups_at_every_bound() {
    let (mut inputs, mut stand) = (0, 0);
    let in_a_script = |config: &Config| config.policy == STRONG || config.k == 0;
    for config in every_config().iter().filter(|config| in_a_script(config)) {
        let Config { n, t, policy, k } = *config;
        let k = (policy == STRONG).then_some(k);
        let script: Vec<u8> = [n, t, policy].into_iter().chain(k).flat_map(written).collect();
        let refusal = alone_refused(&compare_text(&script));
        // In numbers that don't wrap.
        let (times, n, t) = (u128::from(k.unwrap_or(2)) + 1, u128::from(n), u128::from(t));
        let sound =
            policy <= 5 && (1..=31).contains(&n) && k.is_none_or(|k| (2..=8).contains(&k)) && n > times * t;
        assert_eq!(refusal, usize::from(!sound), "{config:?}");
        stand += usize::from(sound);
        inputs += 1;
    }
    println!("compared {inputs:>7} set-ups at every bound as scripts: {stand} stand");
    assert!(stand > 1_000 && inputs - stand > 1_000, "{stand} of {inputs}");
}

/// Counts of twenty digits, and those with the same low bits, so that they are taken for one another by whoever cuts them.
const COUNTS: [u64; 8] = [
    7,
    7 + (1 << 32),
    7 + (1 << 63),
    u64::MAX,
    u64::MAX - (1 << 32),
    4_294_967_295,
    9_999_999_999_999_999_999,
    10_000_000_000_000_000_000,
];

/// A tuple of such counts, as an entry or as a template.
fn tuple_of_counts(dice: &mut Dice, entry: bool) -> Tuple {
    let count = dice.pick(&[1, 1, 2, 6]);
    let fields: Vec<Field> = (0..count)
        .map(|_| match dice.below(if entry { 3 } else { 5 }) {
            3 => Field::any(Kind::Count),
            4 => Field::open(Kind::Count),
            _ => Field::given(Kind::Count, dice.pick(&COUNTS)),
        })
        .collect();
    Tuple::of(&fields)
}

/// Scripts under policy 0 that put such counts on the board and read them, whole and into buffers as long as their text and one byte shorter.
#[test]
fn counts_of_twenty_digits() {
    let mut dice = Dice::new(33);
    let (mut inputs, mut shown, mut twenty) = (0, 0, 0);
    for _ in 0..400 {
        let mut script = vec![4, 1, 0];
        for _ in 0..dice.below(60) {
            let seat = 1 + dice.below(4) as u32;
            let call = match dice.below(6) {
                0 | 1 => Call::out(seat, tuple_of_counts(&mut dice, true)),
                2 | 3 => Call::rdp(seat, tuple_of_counts(&mut dice, false)),
                4 => Call::inp(seat, tuple_of_counts(&mut dice, false)),
                _ => Call::cas(seat, tuple_of_counts(&mut dice, false), tuple_of_counts(&mut dice, true)),
            };
            script.extend(record(&call));
        }
        let text = compare_text(&script);
        let digits = text.split_whitespace().filter_map(|word| word.strip_prefix('c')).map(str::len);
        let digits: Vec<usize> = digits.collect();
        shown += digits.len();
        twenty += digits.iter().filter(|digits| **digits == 20).count();
        assert_eq!(compare_lent(&script, &vec![0xA5; text.len()]), Ok(text.len()));
        assert_eq!(compare_lent(&script, &vec![0xA5; text.len() - 1]), Err(Refusal::Buffer));
        inputs += 3;
    }
    println!("compared {inputs:>7} scripts with long counts: {shown} counts shown, {twenty} of them in twenty digits");
    assert!(twenty > 1_000 && shown > twenty + 1_000, "{shown} {twenty}");
}

/// A script of the longest length with as long a text as is known, into buffers as long as that, longer and shorter.
#[test]
fn a_text_as_long_as_is_known() {
    let counts = Tuple::of(&[Field::given(Kind::Count, u64::MAX); 6]);
    let reading = record(&Call::rdp(1, Tuple::of(&[Field::any(Kind::Count); 6])));
    let mut script = [vec![31, 10, 0], record(&Call::out(1, counts)), reading.repeat(7_273)].concat();
    script.extend([0, 2, 1, 5, 1, 9, 0]);
    assert_eq!(script.len(), LONGEST_SCRIPT);
    let text = compare_text(&script);
    assert_eq!(text.len(), 1_038_995);
    assert!(text.ends_with("\n7275 refused 6\n7276 refused 4\ntuples 1\n"));
    for room in [text.len() - 1, text.len(), ROOM_FOR_TEXT] {
        let fits = room >= text.len();
        let expected = if fits { Ok(text.len()) } else { Err(Refusal::Buffer) };
        assert_eq!(compare_lent(&script, &vec![0xA5; room]), expected);
    }
    println!("compared {:>7} texts of {} bytes", 4, text.len());
}
