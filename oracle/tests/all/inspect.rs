//! The checker: the request's sentences word by word, its traps, and lists of 200,000 triangles.

use oracle::case::Case;
use oracle::gen::{case, large, Kind, Rng};
use oracle::inspect::{attached, check};
use oracle::outcome::{refuse_if, Refusal};

fn refused(number: u32, place: usize) -> Result<(), Refusal> {
    Err(Refusal { number, place })
}

#[test]
fn traps() {
    assert_eq!(check(0, &[]), Ok(()));
    assert_eq!(check(1, &[]), refused(23, 0));
    assert_eq!(check(0, &[7]), refused(20, 0));
    assert_eq!(check(2, &[0, 1, 2]), refused(21, 2));
    assert_eq!(check(3, &[0, 0, 9]), refused(21, 2));
    assert_eq!(check(2, &[0, 0, 1]), refused(22, 0));
    assert_eq!(check(4, &[0, 1, 2]), refused(23, 3));
    assert_eq!(check(6, &[0, 1, 4]), refused(23, 2));
    assert_eq!(attached(3, &[0, 1, 2, 2, 1, 0]), refused(24, 1));
    assert_eq!(attached(6, &[0, 1, 2, 3, 4, 5]), refused(24, 1));
    assert_eq!(attached(6, &[0, 1, 2, 3, 4, 5, 2, 3, 4]), refused(24, 1));
    assert_eq!(attached(5, &[0, 1, 2, 2, 1, 3, 0, 1, 4]), Ok(()));
    assert_eq!(attached(4, &[0, 1, 2]), refused(23, 3));
}

/// The sentences, one after another, with no set or map.
fn by_word(count: usize, list: &[u32]) -> Result<(), Refusal> {
    refuse_if(list.len() % 3 != 0, 20, 0)?;
    for (i, &number) in list.iter().enumerate() {
        refuse_if(number as usize >= count, 21, i)?;
    }
    let triangles: Vec<&[u32]> = list.chunks(3).collect();
    for (i, t) in triangles.iter().enumerate() {
        refuse_if(t[0] == t[1] || t[1] == t[2] || t[0] == t[2], 22, i)?;
    }
    for v in 0..count {
        refuse_if(!list.iter().any(|&number| number as usize == v), 23, v)?;
    }
    Ok(())
}

fn attached_by_word(count: usize, list: &[u32]) -> Result<(), Refusal> {
    by_word(count, list)?;
    let triangles: Vec<&[u32]> = list.chunks(3).collect();
    for (i, t) in triangles.iter().enumerate().skip(1) {
        let shared = |s: &&[u32]| t.iter().filter(|v| s.contains(v)).count();
        let held = triangles[..i].iter().any(|s| shared(s) == 2);
        refuse_if(!held, 24, i)?;
    }
    Ok(())
}

#[test]
fn sets_and_maps_say_what_the_words_say() {
    let mut rng = Rng::new(211);
    let mut told = [0; 25];
    for _ in 0..40_000 {
        if let Case::Attached(case) = case(&mut rng, Kind::Attached) {
            let (count, list) = (case.count, &case.list);
            assert_eq!(
                check(count, list),
                by_word(count, list),
                "{} {:?}",
                count,
                list
            );
            let second = attached(count, list);
            assert_eq!(
                second,
                attached_by_word(count, list),
                "{} {:?}",
                count,
                list
            );
            told[second.map_or_else(|refusal| refusal.number as usize, |()| 0)] += 1;
        }
    }
    assert!(
        [0, 20, 21, 22, 23, 24].iter().all(|&i| told[i] > 500),
        "{:?}",
        told
    );
}

#[test]
fn lists_of_any_three_numbers() {
    // All lists of up to six numbers below 4, with each count up to 5.
    for length in [0, 1, 3, 6] {
        for code in 0..4usize.pow(length) {
            let list: Vec<u32> = (0..length).map(|i| (code >> (2 * i) & 3) as u32).collect();
            for count in 0..=5 {
                assert_eq!(check(count, &list), by_word(count, &list));
                assert_eq!(attached(count, &list), attached_by_word(count, &list));
            }
        }
    }
}

#[test]
fn large_lists() {
    let mut rng = Rng::new(3);
    for _ in 0..20 {
        let case = large(&mut rng, 20_000);
        let _ = attached(case.count, &case.list);
    }
}
