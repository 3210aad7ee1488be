//! The functions from names to linked calls, where nothing is linked.

use crate::kinds::{OnList, OnState, OnStateAndIndices, OnStateAndList, OnStateAndTen};

pub fn on_state(_: &str) -> Option<OnState> {
    None
}

pub fn on_list(_: &str) -> Option<OnList> {
    None
}

pub fn on_state_and_list(_: &str) -> Option<OnStateAndList> {
    None
}

pub fn on_state_and_ten(_: &str) -> Option<OnStateAndTen> {
    None
}

pub fn on_state_and_indices(_: &str) -> Option<OnStateAndIndices> {
    None
}
