//! The digests: of ten words, of two digests, and of lists.

use super::lists::each_list;
use super::refusals::{self, REFUSED};
use super::{Maker, Push, group};
use crate::case::Case;
use cases::{Random, words};
use oracle::{Five, Ten, sponge};

pub fn makers() -> Vec<Maker> {
    group(
        "digests",
        [
            ("probe_hash_10", tens),
            ("probe_hash_pair", pairs),
            ("probe_hash_varlen", lists),
        ],
    )
}

fn tens(random: &mut Random, count: usize, push: Push) {
    let call = "probe_hash_10";
    for _ in 0..count / 20 {
        let mut ten: Ten = words::good_array(random);
        let room: Five = words::room(random);
        if !random.once_in(REFUSED) {
            let case = Case::new(call).kept(&ten);
            push(case.words(&room, &sponge::hash_10(ten)));
            continue;
        }
        let (list, refusal) = if random.once_in(2) {
            (refusals::not_so_many(random, 10), 2)
        } else {
            refusals::spoil(random, &mut ten);
            (ten.to_vec(), 1)
        };
        let case = Case::new(call).kept(&list).words(&room, &[0; 5]);
        push(case.refused(refusal));
    }
}

fn pairs(random: &mut Random, count: usize, push: Push) {
    let call = "probe_hash_pair";
    for _ in 0..count / 20 {
        let mut left: Five = words::good_array(random);
        let mut right: Five = words::good_array(random);
        let room: Five = words::room(random);
        if !random.once_in(REFUSED) {
            let case = Case::new(call).kept(&left).kept(&right);
            push(case.words(&room, &sponge::hash_pair(left, right)));
            continue;
        }
        let (left, right, refusal) = match random.below(4) {
            0 => (refusals::not_so_many(random, 5), right.to_vec(), 2),
            1 => (left.to_vec(), refusals::not_so_many(random, 5), 2),
            2 => {
                refusals::spoil(random, &mut left);
                (left.to_vec(), right.to_vec(), 1)
            }
            _ => {
                refusals::spoil(random, &mut right);
                (left.to_vec(), right.to_vec(), 1)
            }
        };
        let case = Case::new(call).kept(&left).kept(&right);
        push(case.words(&room, &[0; 5]).refused(refusal));
    }
}

fn lists(random: &mut Random, count: usize, push: Push) {
    let call = "probe_hash_varlen";
    each_list(random, count, |random, mut list| {
        let room = words::room::<5>(random);
        if list.is_empty() || !random.once_in(REFUSED) {
            let digest = sponge::hash_varlen(&list);
            push(Case::new(call).kept(&list).words(&room, &digest));
            return;
        }
        refusals::spoil(random, &mut list);
        push(Case::new(call).kept(&list).words(&room, &[0; 5]).refused(1));
    });
}
