//! Lists of gate numbers: each once, in any order, and lists that aren't that.

use super::Random;

/// Each number below `count` once.
pub fn order(random: &mut Random, count: usize) -> Vec<u16> {
    let order = random.permutation(count).into_iter();
    order.map(|number| number as u16).collect()
}

/// What is wrong, and the list; made from lists of each number below `count`.
pub fn bad_orders(random: &mut Random, count: usize) -> Vec<(&'static str, Vec<u16>)> {
    let good = order(random, count);
    let with = |place: usize, number: usize| {
        let mut list = good.clone();
        list[place] = number as u16;
        list
    };
    let mut made = vec![
        (
            "the next number more",
            [&good[..], &[count as u16]].concat(),
        ),
        ("a 0 more", [&good[..], &[0]].concat()),
        ("more than a number of 16 bits", vec![0; 65_536 + count]),
    ];
    if count == 0 {
        return made;
    }
    let (place, other) = (random.below(count), random.below(count));
    made.push(("none", Vec::new()));
    made.push(("one fewer", good[1..].to_vec()));
    made.push(("the list twice", good.repeat(2)));
    made.push(("a number at the count", with(place, count)));
    made.push((
        "a number above the count",
        with(place, random.between(count, 65_535)),
    ));
    made.push(("the greatest number", with(place, 65_535)));
    made.push(("a number with the top bit", with(place, 32_768 + place)));
    if place != other {
        made.push(("a number twice", with(place, good[other].into())));
        made.push(("all the same", vec![good[0]; count]));
    }
    made
}
