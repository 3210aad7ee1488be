//! Our calls, linked into this process.

use crate::{Answer, Arg, Request};
use std::alloc::Layout;
use std::ptr::NonNull;

/// The linked functions, which the build script writes from the headers.
pub mod functions {
    use super::Raw;
    use crate::kinds::*;
    include!(concat!(env!("OUT_DIR"), "/linked.rs"));
}

/// An argument: a number, or the address and the number of items of what is lent.
#[allow(dead_code)] // a short list of calls may have no argument of one kind
pub struct Raw {
    word: u64,
    data: *mut u8,
    length: usize,
}

/// Lent bytes between guards.
struct Room {
    block: NonNull<u8>,
    layout: Layout,
    guard: usize,
}

const GUARD: u8 = 0xa5;

/// Bytes of a guard on each side.
const GUARDS: usize = 64;

/// What is lent may hold words.
const ALIGNMENT: usize = 8;

impl Room {
    /// A block of exactly these bytes and the guards, so that a tool that watches memory sees where
    /// it ends.
    fn new(bytes: &[u8], guard: usize) -> Self {
        let size = guard + bytes.len() + guard;
        // A block of no bytes can't be had; it is one byte that nobody may touch.
        let layout = Layout::from_size_align(size.max(1), ALIGNMENT).unwrap();
        // SAFETY: the size is not 0.
        let block = unsafe { std::alloc::alloc(layout) };
        let block = NonNull::new(block).unwrap_or_else(|| std::alloc::handle_alloc_error(layout));
        let mut room = Self {
            block,
            layout,
            guard,
        };
        if size > 0 {
            room.all().fill(GUARD);
            room.all()[guard..guard + bytes.len()].copy_from_slice(bytes);
        }
        room
    }

    fn all(&mut self) -> &mut [u8] {
        // SAFETY: the block has so many bytes, and this room alone has it.
        unsafe { std::slice::from_raw_parts_mut(self.block.as_ptr(), self.layout.size()) }
    }

    /// Where the lent bytes begin.
    fn lent(&self) -> *mut u8 {
        // SAFETY: the block has a guard and more, or is lent from its start.
        unsafe { self.block.as_ptr().add(self.guard) }
    }

    /// The lent bytes now, `size` of them, and whether both guards still are what they were.
    fn now(&mut self, size: usize) -> (Vec<u8>, bool) {
        let guard = self.guard;
        let all = &self.all()[..guard + size + guard];
        let lent = &all[guard..guard + size];
        let guards = [&all[..guard], &all[guard + size..]];
        let intact = guards.concat().iter().all(|&byte| byte == GUARD);
        (lent.to_vec(), intact)
    }
}

impl Drop for Room {
    fn drop(&mut self) {
        // SAFETY: it was allocated with this layout.
        unsafe { std::alloc::dealloc(self.block.as_ptr(), self.layout) }
    }
}

pub struct Way {
    guard: usize,
}

impl Way {
    pub fn open(guarded: bool) -> Result<Self, String> {
        Ok(Self {
            guard: if guarded { GUARDS } else { 0 },
        })
    }

    pub fn description(&self) -> String {
        "our calls are linked into this process".to_string()
    }

    pub fn run(&mut self, batch: &[Request]) -> Vec<Answer> {
        batch
            .iter()
            .map(|request| make(request, self.guard))
            .collect()
    }
}

fn make(request: &Request, guard: usize) -> Answer {
    let mut rooms: Vec<Room> = request
        .args
        .iter()
        .map(|it| Room::new(&it.bytes(), guard))
        .collect();
    let raw: Vec<Raw> = std::iter::zip(&request.args, &rooms)
        .map(|(arg, room)| Raw {
            word: if let Arg::Number(number) = arg {
                *number
            } else {
                0
            },
            data: room.lent(),
            length: match arg {
                Arg::Number(_) => 0,
                Arg::Words(words) => words.len(),
                Arg::Indices(indices) => indices.len(),
                Arg::Bytes(bytes) => bytes.len(),
            },
        })
        .collect();
    // SAFETY: the arguments have the shape that the table gives the call, as the runner checks,
    // and each is lent nowhere else.
    let refusal = unsafe { functions::call(request.call, &raw) };
    let mut strayed = false;
    let args = std::iter::zip(&request.args, &mut rooms)
        .map(|(arg, room)| {
            let (bytes, intact) = room.now(arg.bytes().len());
            strayed |= !intact;
            arg.replaced(&bytes)
        })
        .collect();
    Answer {
        refusal,
        args,
        strayed,
    }
}
