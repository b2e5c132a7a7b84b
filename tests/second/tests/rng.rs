//! Drawn numbers, kept and played again.

use second::gen;
use second::play::drawn_script;
use second::rng::Rng;

/// Something of every kind of draw.
fn made(rng: &mut Rng) -> String {
    let receiver = gen::receiver(rng, true);
    let transfer = gen::transfer(rng, &receiver);
    let stream = gen::uart_stream(rng, 8, 40, 4, 60);
    let (advertisement, start) = gen::advertisement_to_index(rng);
    let index = gen::index(rng, &advertisement, start);
    format!("{receiver:?} {transfer:?} {stream:?} {index:?} {:?}", drawn_script(rng))
}

#[test]
fn what_is_kept_and_played_makes_the_same() {
    for seed in 0..100 {
        let (mut plain, mut keeping) = (Rng::new(seed), Rng::keeping(seed));
        let due = made(&mut plain);
        assert_eq!(made(&mut keeping), due);
        let drawn = keeping.drawn();
        let mut playing = Rng::playing(drawn.clone());
        assert_eq!(made(&mut playing), due);
        assert_eq!(playing.drawn(), drawn);
        assert!(plain.drawn().is_empty());
    }
}

#[test]
fn zeros_come_behind_what_is_played() {
    let mut rng = Rng::playing(vec![7]);
    assert_eq!([rng.next_u64(), rng.next_u64(), rng.next_u64()], [7, 0, 0]);
    assert_eq!((rng.byte(), rng.below(5), rng.between(3, 9), rng.pick(&[4, 5])), (0, 0, 3, 4));
    assert_eq!([0, 1, 99, 100].map(|chance| rng.percent(chance)), [false, false, false, true]);
    assert_eq!(rng.bytes(9), [0; 9]);
}

#[test]
fn of_a_number_that_is_kept_what_is_looked_at() {
    let mut rng = Rng::playing(vec![u64::MAX; 4]);
    let below = ((u64::MAX >> 16) % 1000) as usize;
    assert_eq!((rng.byte(), rng.below(1000)), (255, below));
    assert_eq!((rng.next_u64(), rng.bytes(2)), (u64::MAX, vec![255, 255]));
    assert_eq!(rng.drawn(), [255 << 56, (below as u64) << 16, u64::MAX, 0xFFFF]);
}

#[test]
fn a_chance_is_as_large_as_it_says() {
    let mut rng = Rng::new(80);
    for chance in [0, 2, 50, 96, 100] {
        let met = (0..100_000).filter(|_| rng.percent(chance)).count();
        assert!(met.abs_diff(1_000 * chance) < 700, "{met} for {chance}");
    }
}
