//! A group: a pair, and what each law makes of it, as calls of the norm.

use super::condition::Multiplied;
use super::cover::{Cover, Met};
use crate::calls::Call;
use crate::functions::Function;
use crate::model::{Points, Rules};
use crate::named::named;
use crate::pipes::Asked;
use crate::words::Words;

named! {
    /// A law of the norm.
    Law,
    /// What is done to a pair.
    LAWS {
        Order: "another order within the sides",
        Exchange: "both edges exchanged",
        Signs: "all signs changed",
        Times: "all times a power of two",
    }
}

/// A call of a group: the pair itself, or what a law makes of it. Its source norm is the pair's own times 2^k, where k
/// is 0 but under `Times`. So is its norm, where it is not brought across 2^-60.
pub struct Member {
    pub call: Call,
    pub law: Option<Law>,
    pub k: i32,
}

impl Asked for Member {
    fn call(&self) -> &Call {
        &self.call
    }
}

/// An order of the columns, the law under which it is, and what it shows.
type Order = ([usize; 4], Law, Met);

const EDGES: [Order; 4] = [
    ([1, 0, 2, 3], Law::Order, Met::Edges1023),
    ([0, 1, 3, 2], Law::Order, Met::Edges0132),
    ([1, 0, 3, 2], Law::Order, Met::Edges1032),
    ([2, 3, 0, 1], Law::Exchange, Met::Edges2301),
];

const FACE: [Order; 5] = [
    ([0, 2, 1, 3], Law::Order, Met::Face0213),
    ([1, 0, 2, 3], Law::Order, Met::Face1023),
    ([1, 2, 0, 3], Law::Order, Met::Face1203),
    ([2, 0, 1, 3], Law::Order, Met::Face2013),
    ([2, 1, 0, 3], Law::Order, Met::Face2103),
];

/// The pair with all that the laws make of it; it is multiplied where it is admitted and the condition holds.
pub fn group(call: Call, powers: &[i32], cover: &mut Cover) -> Vec<Member> {
    let (x, split) = (call.points("x"), call.word("split"));
    let of = |x: &Points, law, k| {
        let call = Call::new(Function::MaxRelativeNorm, Words::new().points(x).word(split));
        Member { call, law: Some(law), k }
    };
    cover.note(Met::Itself);
    let mut members = vec![Member { call, law: None, k: 0 }];
    let orders: &[Order] = if split == 2 { &EDGES } else { &FACE };
    for &(order, law, shows) in orders {
        cover.note(shows);
        members.push(of(&order.map(|i| x[i]), law, 0));
    }
    cover.note(Met::Signs);
    members.push(of(&x.map(|column| column.map(|n| -n)), Law::Signs, 0));
    match Rules::DOCUMENT.max_relative_norm(&x, split) {
        Ok(norm) => {
            cover.note_where(&[(norm == 0.0, Met::NormZero)]);
            let all = powers.iter().map(|&k| Multiplied::new(x, split, k));
            let meant = all.filter(|both| cover.multiplied(both));
            members.extend(meant.map(|both| of(&both.y, Law::Times, both.k)));
        }
        Err(refusal) => cover.refused(&x, split, refusal),
    }
    members
}
