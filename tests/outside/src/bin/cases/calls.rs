//! The calls by their names in the case files.

use reference::{Frame, ARGUMENTS, ASK, BACK, BLOCK, LOT, NEWEST, OPEN, READ, RUN, STOP};

/// How a line names a call and gives its arguments.
struct Named {
    name: &'static str,
    number: u32,
    /// The slot of each argument, in the line's order. Slots count from 1.
    slots: &'static [usize],
    /// What may follow.
    rest: Rest,
}

/// The last arguments of a call, of which a line gives all or none.
struct Rest {
    what: &'static str,
    slots: &'static [usize],
    /// What a line without them brings.
    left_out: &'static [u32],
}

const NOTHING: Rest = Rest {
    what: "nothing",
    slots: &[],
    left_out: &[],
};
/// An Open with four numbers is paper 01's, which sets no ceiling.
const CEILING: Rest = Rest {
    what: "a ceiling",
    slots: &[5],
    left_out: &[0],
};
/// "The lots, runs and blocks in 01's cases bring recording 1, second 0."
const RECORDING: Rest = Rest {
    what: "a recording",
    slots: &[6, 7],
    left_out: &[1, 0],
};

const fn named(name: &'static str, number: u32, slots: &'static [usize], rest: Rest) -> Named {
    Named {
        name,
        number,
        slots,
        rest,
    }
}

const CALLS: [Named; 9] = [
    named("open", OPEN, &[1, 2, 3, 4], CEILING),
    named("lot", LOT, &[1, 2, 3, 4, 5], RECORDING),
    named("run", RUN, &[1, 2], RECORDING),
    named("block", BLOCK, &[1, 2], RECORDING),
    named("stop", STOP, &[1, 2], NOTHING),
    named("back", BACK, &[], NOTHING),
    named("ask", ASK, &[1], NOTHING),
    named("read", READ, &[], NOTHING),
    named("newest", NEWEST, &[1], NOTHING),
];

/// The call of this name on this stream, with these arguments.
pub fn call(name: &str, stream: u32, arguments: &[u32]) -> Result<Frame, String> {
    let Some(named) = CALLS.iter().find(|named| named.name == name) else {
        return Err(format!("no call '{name}'"));
    };
    let (given, needed) = (arguments.len(), named.slots.len());
    let rest = match given.checked_sub(needed) {
        Some(0) => named.rest.left_out,
        Some(more) if more == named.rest.slots.len() => &arguments[needed..],
        _ => return Err(wrong_count(named, given)),
    };
    let mut args = [0; ARGUMENTS];
    let slots = named.slots.iter().chain(named.rest.slots);
    for (slot, argument) in slots.zip(arguments[..needed].iter().chain(rest)) {
        args[slot - 1] = *argument;
    }
    Ok(Frame {
        call: named.number,
        stream,
        args,
    })
}

fn wrong_count(named: &Named, given: usize) -> String {
    let (name, needed) = (named.name, named.slots.len());
    let Rest { what, slots, .. } = named.rest;
    if slots.is_empty() {
        format!("{name} takes {needed} arguments, not {given}")
    } else {
        let with_rest = needed + slots.len();
        format!("{name} takes {needed} arguments, or {with_rest} with {what}, not {given}")
    }
}
