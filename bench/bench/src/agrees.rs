//! That the plain functions have the same answers, before they are measured: many
//! generated arguments, against the second reading.

use crate::plain;
use generate::calls::random_call;
use generate::damage::damaged;
use generate::rules::random_rule;
use generate::Prng;
use reader::Rule;

const COUNT: u64 = 5000;

pub fn ask() {
    for index in 0..COUNT {
        let mut rng = Prng::new(1, index);
        feeding(&mut rng);
        rule_files(&mut rng);
    }
}

fn feeding(rng: &mut Prng) {
    let call = random_call(rng);
    let (file, events) = (&call.rule_file, &call.events);
    let (mut expected, mut found) = (call.store.clone(), call.store.clone());
    assert_eq!(
        reader::feed(file, &call.book, call.reading, &mut expected, events, call.ceiling),
        plain::feed(file, &call.book, call.reading, &mut found, events, call.ceiling)
    );
    assert_eq!(expected, found);

    let zeros = [0; 65];
    if let Ok(opening) = reader::open(file, &mut zeros.clone()) {
        let (mut expected, mut found) = (call.store.clone(), call.store);
        assert_eq!(
            reader::feed(file, &zeros, opening.reading, &mut expected, events, u32::MAX),
            plain::read_in_full(file, &mut found, events)
        );
        assert_eq!(expected, found);
    }
}

fn rule_files(rng: &mut Prng) {
    let good = random_rule(rng).to_file();
    let file = if rng.chance(50) { damaged(rng, &good) } else { good };
    assert_eq!(
        Rule::from_file(&file).map(|rule| (rule.n, rule.k)),
        plain::Table::from_file(&file).map(|table| (table.n, table.k))
    );
    let length = rng.pick(&[3, 64, 65, 66]);
    let mut books = [(); 3].map(|()| vec![7; length]);
    let [expected, by_words, by_marks] = &mut books;
    let opened = reader::open(&file, expected);
    assert_eq!(opened, plain::open_by_words(&file, by_words));
    assert_eq!(opened, plain::open_by_marks(&file, by_marks));
    assert!(expected == by_words && expected == by_marks);
}
