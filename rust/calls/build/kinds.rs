//! The kinds of calls that are timed: for each a function from names to the linked functions with
//! such parameters, as Rust.

use crate::header::{Call, Param};
use crate::rust_type;

/// A kind of calls. Its type stands in `src/kinds.rs`.
struct Kind {
    /// The function from names to linked functions.
    function: &'static str,
    name: &'static str,
    /// The parameters that its calls may have, each list with the closure that makes such a call,
    /// NAME standing for it.
    shapes: &'static [(&'static str, &'static str)],
}

const KINDS: [Kind; 5] = [
    Kind {
        function: "on_state",
        name: "OnState",
        shapes: &[
            ("&mut [u64]", "|state| unsafe { NAME(state.as_mut_ptr(), 16) }"),
            ("&mut [u64; 16]", "|state| unsafe { NAME(state.as_mut_ptr()) }"),
        ],
    },
    Kind {
        function: "on_list",
        name: "OnList",
        shapes: &[(
            "&[u64], &mut [u64; 5]",
            "|list, digest| unsafe { NAME(list.as_ptr(), list.len(), digest.as_mut_ptr()) }",
        )],
    },
    Kind {
        function: "on_state_and_list",
        name: "OnStateAndList",
        shapes: &[(
            "&mut [u64; 16], &[u64]",
            "|state, list| unsafe { NAME(state.as_mut_ptr(), list.as_ptr(), list.len()) }",
        )],
    },
    Kind {
        function: "on_state_and_ten",
        name: "OnStateAndTen",
        shapes: &[(
            "&mut [u64; 16], &mut [u64; 10]",
            "|state, ten| unsafe { NAME(state.as_mut_ptr(), ten.as_mut_ptr()) }",
        )],
    },
    Kind {
        function: "on_state_and_indices",
        name: "OnStateAndIndices",
        shapes: &[(
            "&mut [u64; 16], u32, &mut [u32], u64, &mut [u64; 1], &mut [u64; 1]",
            "|state, bound, indices, allowance, counts| unsafe {
            let [found, squeezes] = counts;
            NAME(state.as_mut_ptr(), bound, indices.as_mut_ptr(), indices.len(), allowance, found, squeezes)
        }",
        )],
    },
];

/// The functions of all kinds.
pub fn by_name(calls: &[Call]) -> String {
    let functions = KINDS.iter().map(|kind| function(kind, calls));
    functions.collect::<Vec<_>>().join("\n")
}

fn function(kind: &Kind, calls: &[Call]) -> String {
    let arm = |call: &Call| {
        let params: Vec<_> = call.params.iter().map(shape).collect();
        let params = params.join(", ");
        let (_, closure) = kind.shapes.iter().find(|(shape, _)| *shape == params)?;
        let closure = closure.replace("NAME", &call.name);
        Some(format!("        {:?} => Some({closure}),\n", call.name))
    };
    let present = calls.iter().filter(|call| call.present);
    let arms: String = present.filter_map(arm).collect();
    format!(
        "pub fn {}(name: &str) -> Option<{}> {{\n    \
             match name {{\n{arms}        _ => None,\n    }}\n}}\n",
        kind.function, kind.name
    )
}

/// A parameter as `shapes` has it.
fn shape(param: &Param) -> String {
    let lent = |shared: &bool| if *shared { "&" } else { "&mut " };
    match param {
        Param::Number(kind) => rust_type(kind).to_string(),
        Param::Array {
            item,
            length,
            shared,
        } => format!("{}[{}; {length}]", lent(shared), rust_type(item)),
        Param::Slice { item, shared } => format!("{}[{}]", lent(shared), rust_type(item)),
    }
}
