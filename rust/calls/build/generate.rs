//! Writes code from the list of calls: the table, and one function that makes the call of a given
//! number. It takes the arguments as `Raw` values: a number in `word`, or the address and the number
//! of items of what is lent in `data` and `length`.

use crate::header::{Call, Param};
use crate::{kinds, rust_type};

/// The table of calls, as Rust.
pub fn table(calls: &[Call]) -> String {
    let mut text = String::from("pub const CALLS: &[Call] = &[\n");
    for call in calls {
        let params: Vec<_> = call.params.iter().map(table_param).collect();
        text += &format!(
            "    Call {{ name: {:?}, present: {}, params: &[{}] }},\n",
            call.name,
            call.present,
            params.join(", ")
        );
    }
    text + "];\n"
}

fn table_param(param: &Param) -> String {
    match param {
        Param::Number(_) => "Param::Number".to_string(),
        Param::Array { item, length, .. } => {
            let item = rust_type(item).to_uppercase();
            format!("Param::Array(Item::{item}, {length})")
        }
        Param::Slice { item, .. } => {
            format!("Param::Slice(Item::{})", rust_type(item).to_uppercase())
        }
    }
}

/// The linked functions and the function that calls them, as Rust.
pub fn rust_calls(calls: &[Call]) -> String {
    let mut declared = String::from("unsafe extern \"C\" {\n");
    let mut arms = String::new();
    for (index, call) in calls.iter().enumerate().filter(|(_, call)| call.present) {
        let (types, values): (Vec<_>, Vec<_>) = rust_params(call).into_iter().unzip();
        let name = &call.name;
        let types: Vec<_> = types.iter().map(|kind| format!("_: {kind}")).collect();
        declared += &format!("    pub fn {name}({}) -> u32;\n", types.join(", "));
        arms += &format!("            {index} => {name}({}),\n", values.join(", "));
    }
    format!(
        "{declared}}}\n\n\
         pub unsafe fn call(index: usize, args: &[Raw]) -> u32 {{\n    \
             unsafe {{\n        match index {{\n{arms}            \
             _ => unreachable!(),\n        }}\n    }}\n}}\n\n{}",
        kinds::by_name(calls),
    )
}

/// The parameters of a linked function: the type of each, and its value out of `args`.
fn rust_params(call: &Call) -> Vec<(String, String)> {
    let of_param = |(i, param): (usize, &Param)| match param {
        Param::Number(kind) => {
            let value = match rust_type(kind) {
                "u64" => format!("args[{i}].word"),
                narrow => format!("args[{i}].word as {narrow}"),
            };
            vec![(rust_type(kind).to_string(), value)]
        }
        Param::Array { item, shared, .. } => {
            vec![(
                rust_pointer(item, *shared),
                format!("args[{i}].data.cast()"),
            )]
        }
        Param::Slice { item, shared } => vec![
            (
                rust_pointer(item, *shared),
                format!("args[{i}].data.cast()"),
            ),
            ("usize".to_string(), format!("args[{i}].length")),
        ],
    };
    call.params.iter().enumerate().flat_map(of_param).collect()
}

/// A pointer to items of a C type, as Rust.
fn rust_pointer(item: &str, shared: bool) -> String {
    let kind = if shared { "*const" } else { "*mut" };
    format!("{kind} {}", rust_type(item))
}
