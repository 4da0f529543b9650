//! Certificates to try, made from a seed: the same bytes on every machine.

pub mod damage;
pub mod document;
pub mod faults;
pub mod hidden;
pub mod mixed;
pub mod model;
pub mod sizes;
pub mod valid;

use crate::answer;
use crate::random::Random;
use mixed::Ending;
use std::collections::{BTreeMap, BTreeSet};
use valid::Wish;

/// The corpus: the paper's own list, every refusal on every kind of line, two
/// faults at once, edges of sizes, damaged bytes, and sound certificates, some
/// of them with one critical pair among very many substitutions, and some
/// unsuitable with each answer about closure.
pub fn corpus() -> Vec<Vec<u8>> {
    let mut random = Random::new(20_260_101);
    let mut files: Vec<Vec<u8>> = Vec::new();
    files.extend(document::proved().into_iter().map(|(_, file)| file));
    files.extend(document::run().into_iter().map(|(_, file)| file));
    files.push(document::CLOSED_UNSAFE.as_bytes().to_vec());

    let (example, wider) = (document::example(), document::wider());
    for (model, most) in [(&example, 9), (&wider, 7)] {
        let mut singles = faults::singles(model);
        random.shuffle(&mut singles);
        let kept = at_most(most, singles, |single| {
            (single.kind, single.expected.number)
        });
        files.extend(kept.into_iter().map(|single| single.file));
        let mut doubles = faults::doubles(model);
        random.shuffle(&mut doubles);
        files.extend(at_most(45, doubles, |file| answer(file).0));
        let two = faults::on_two_lines(model, &mut random, 75);
        files.extend(two.into_iter().map(|(_, file)| file));
    }

    files.extend(sizes::all(&mut random));
    let mut damaged = damage::at_each_byte(&example.write(), &mut random);
    random.shuffle(&mut damaged);
    damaged.truncate(330);
    files.extend(damaged);
    let mut damaged = damage::at_each_line(&example.write());
    random.shuffle(&mut damaged);
    damaged.truncate(220);
    files.extend(damaged);

    for number in 0..790 {
        files.push(valid::valid(&mut random, Wish::ALL[number % 4]).write());
    }
    for _ in 0..25 {
        files.push(valid::late(&mut random).write());
    }
    for wished in [6, 7, 8, 9, 9, 10, 10, 10, 11] {
        for number in 0..25 {
            let model = valid::valid(&mut random, Wish::ALL[number % 4]);
            files.push(faults::random_fault(&model, &mut random, wished));
        }
    }
    for number in 0..100 {
        files.push(packed(7, number));
    }
    for number in 0..60 {
        files.push(hidden::hidden(&mut Random::numbered(7, number)).write());
    }
    for number in 0..126 {
        let wished = Ending::ALL[number as usize % 3];
        files.push(mixed::unsuitable(&mut Random::numbered(8, number), wished).write());
    }
    for number in 0..15 {
        files.push(hidden::hidden_unsuitable(&mut Random::numbered(12, number)).write());
    }
    files.extend(sizes::unsuitable_totals());
    without_repeats(files)
}

/// The first of the list, at most so many with one mark.
fn at_most<T, M: Ord>(most: usize, list: Vec<T>, mark: impl Fn(&T) -> M) -> Vec<T> {
    let mut met: BTreeMap<M, usize> = BTreeMap::new();
    let keep = |one: &T| {
        let count = met.entry(mark(one)).or_default();
        *count += 1;
        *count <= most
    };
    let mut list = list;
    list.retain(keep);
    list
}

fn without_repeats(files: Vec<Vec<u8>>) -> Vec<Vec<u8>> {
    let mut met = BTreeSet::new();
    files
        .into_iter()
        .filter(|file| met.insert(file.clone()))
        .collect()
}

/// Certificate number `index` of the seed: sound and damaged ones mixed.
pub fn packed(seed: u64, index: u64) -> Vec<u8> {
    let mut random = Random::numbered(seed, index);
    let wish = *random.pick(&Wish::ALL);
    match random.below(1000) {
        0..=379 => valid::valid(&mut random, wish).write(),
        380..=417 => {
            let wished = *random.pick(&Ending::ALL);
            mixed::unsuitable(&mut random, wished).write()
        }
        418..=419 => hidden::hidden_unsuitable(&mut random).write(),
        420..=429 => hidden::hidden(&mut random).write(),
        430..=449 => sizes::random_size(&mut random),
        450..=451 => {
            let file = valid::valid(&mut random, wish).write();
            sizes::random_length(&file, &mut random)
        }
        452..=799 => {
            let model = valid::valid(&mut random, wish);
            let wished = *random.pick(&[3, 4, 4, 5, 5, 6, 6, 7, 8, 8, 9, 10, 11]);
            faults::random_fault(&model, &mut random, wished)
        }
        _ => {
            let file = valid::valid(&mut random, wish).write();
            damage::random_damage(&file, &mut random)
        }
    }
}
