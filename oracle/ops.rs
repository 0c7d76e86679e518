// The operations of a line: code, name, kind of the container, what is asked, and the numbers that paper 01 lets it answer.

#[derive(Clone, Copy, PartialEq, Eq, Debug)]
pub enum Kind {
    Ring,
    Vector,
}

#[derive(Clone, Copy, PartialEq, Eq, Debug)]
pub enum Act {
    New, WithCapacity, FromElem,
    Len, IsEmpty, Read, AskRange,
    Reserve, TryReserve, TryReserveExact,
    Write, PushBack, PushFront, PopBack, PopFront, Insert, Remove, SwapRemove,
    InsertWithin, RemoveWithin,
    Truncate, Resize, Clear, Extend,
    Range, AsSlice, AsRef, Deref, AsMutSlice, DerefMut,
    Append, SplitOff, Clone, Same, SameAsVector,
    Iter, IntoIter, StepFront, StepBack, PeekFront, PeekBack, FromIter,
    Store, ReadBack, Check,
}

pub struct Op {
    pub code: u8,
    pub kind: Kind,
    pub act: Act,
    pub name: &'static str,
    pub numbers: &'static [u8], // each of them must be met in a comparison
}

const fn op(code: u8, kind: Kind, act: Act, name: &'static str, numbers: &'static [u8]) -> Op {
    Op { code, kind, act, name, numbers }
}

use Act::*;
use Kind::*;

pub const OPS: [Op; 71] = [
    op(0x10, Ring, New, "ring new", &[0, 1]),
    op(0x11, Ring, WithCapacity, "ring with_capacity", &[0, 1, 6]),
    op(0x12, Ring, Len, "ring len", &[0, 1]),
    op(0x13, Ring, Read, "ring read", &[0, 1, 3]),
    op(0x14, Ring, Reserve, "ring reserve", &[0, 1, 6]),
    op(0x15, Ring, Write, "ring write", &[0, 1, 3]),
    op(0x16, Ring, PushBack, "ring push_back", &[0, 1, 6]),
    op(0x17, Ring, PushFront, "ring push_front", &[0, 1, 6]),
    op(0x18, Ring, PopBack, "ring pop_back", &[0, 1, 4]),
    op(0x19, Ring, PopFront, "ring pop_front", &[0, 1, 4]),
    op(0x1a, Ring, Insert, "ring insert", &[0, 1, 3, 6]),
    op(0x1b, Ring, Remove, "ring remove", &[0, 1, 3]),
    op(0x1c, Ring, Truncate, "ring truncate", &[0, 1]),
    op(0x1d, Ring, Resize, "ring resize", &[0, 1, 6]),
    op(0x1e, Ring, Clear, "ring clear", &[0, 1]),
    op(0x20, Vector, New, "vector new", &[0, 1]),
    op(0x21, Vector, WithCapacity, "vector with_capacity", &[0, 1, 6]),
    op(0x22, Vector, Len, "vector len", &[0, 1]),
    op(0x23, Vector, Read, "vector read", &[0, 1, 3]),
    op(0x24, Vector, Reserve, "vector reserve", &[0, 1, 6]),
    op(0x25, Vector, Write, "vector write", &[0, 1, 3]),
    op(0x26, Vector, PushBack, "vector push", &[0, 1, 6]),
    op(0x27, Vector, PopBack, "vector pop", &[0, 1, 4]),
    op(0x28, Vector, FromElem, "vector from_elem", &[0, 1, 6]),
    op(0x29, Vector, SwapRemove, "vector swap_remove", &[0, 1, 3]),
    op(0x2a, Vector, Insert, "vector insert", &[0, 1, 3, 6]),
    op(0x2b, Vector, Remove, "vector remove", &[0, 1, 3]),
    op(0x2c, Vector, Truncate, "vector truncate", &[0, 1]),
    op(0x2d, Vector, Resize, "vector resize", &[0, 1, 6]),
    op(0x2e, Vector, Clear, "vector clear", &[0, 1]),
    op(0x2f, Vector, Extend, "vector extend_from_slice", &[0, 1, 6]),
    op(0x30, Vector, IsEmpty, "vector is_empty", &[0, 1]),
    op(0x31, Vector, TryReserve, "vector try_reserve", &[0, 1, 6]),
    op(0x32, Vector, TryReserveExact, "vector try_reserve_exact", &[0, 1, 6]),
    op(0x33, Vector, AskRange, "vector ask_range", &[0, 1, 3]),
    op(0x38, Vector, Range, "vector range", &[0]),
    op(0x39, Vector, AsSlice, "vector as_slice", &[0]),
    op(0x3a, Vector, AsRef, "vector as_ref", &[0]),
    op(0x3b, Vector, Deref, "vector deref", &[0]),
    op(0x3c, Vector, AsMutSlice, "vector as_mut_slice", &[0]),
    op(0x3d, Vector, DerefMut, "vector deref_mut", &[0]),
    op(0x40, Ring, Append, "rings append", &[0, 1, 2, 6]),
    op(0x41, Ring, SplitOff, "rings split_off", &[0, 1, 2, 3, 5, 6]),
    op(0x42, Ring, Clone, "rings clone", &[0, 1, 2, 5, 6]),
    op(0x43, Ring, Same, "rings same", &[0, 1, 2]),
    op(0x44, Ring, SameAsVector, "ring same_as_vector", &[0, 1, 2]),
    op(0x50, Vector, Append, "vectors append", &[0, 1, 2, 6]),
    op(0x51, Vector, SplitOff, "vectors split_off", &[0, 1, 2, 3, 5, 6]),
    op(0x52, Vector, Clone, "vectors clone", &[0, 1, 2, 5, 6]),
    op(0x53, Vector, Same, "vectors equal", &[0, 1, 2]),
    op(0x60, Ring, Iter, "ring iter", &[0, 1]),
    op(0x61, Ring, IntoIter, "ring into_iter", &[0, 1]),
    op(0x62, Ring, StepFront, "ring step_front", &[0, 1, 3, 4]),
    op(0x63, Ring, StepBack, "ring step_back", &[0, 1, 3, 4]),
    op(0x64, Ring, PeekFront, "ring peek_front", &[0, 1, 3]),
    op(0x65, Ring, PeekBack, "ring peek_back", &[0, 1, 3]),
    op(0x66, Ring, FromIter, "ring from_iter", &[0, 1, 2, 3, 5, 6]),
    op(0x70, Vector, Iter, "vector iter", &[0, 1]),
    op(0x71, Vector, IntoIter, "vector into_iter", &[0, 1]),
    op(0x72, Vector, StepFront, "vector step_front", &[0, 1, 3, 4]),
    op(0x73, Vector, StepBack, "vector step_back", &[0, 1, 3, 4]),
    op(0x74, Vector, PeekFront, "vector peek_front", &[0, 1, 3]),
    op(0x75, Vector, PeekBack, "vector peek_back", &[0, 1, 3]),
    op(0x76, Vector, FromIter, "vector from_iter", &[0, 1, 2, 3, 5, 6]),
    op(0x80, Ring, Store, "ring stored", &[0, 1, 6]),
    op(0x81, Vector, Store, "vector stored", &[0, 1, 6]),
    op(0x82, Ring, ReadBack, "ring read back", &[0, 1, 6, 14]),
    op(0x83, Vector, ReadBack, "vector read back", &[0, 1, 6, 14]),
    op(0x84, Ring, Check, "text checked", &[0]), // of no container; this kind leaves the head alone
    op(0x90, Ring, InsertWithin, "ring insert_within", &[0, 1, 3, 6, 12]),
    op(0x91, Ring, RemoveWithin, "ring remove_within", &[0, 1, 3, 12]),
];

pub const PLACING: std::ops::RangeInclusive<u8> = 1..=11;

// Where a code stands in OPS; 255 where it is no operation.
const PLACES: [u8; 256] = {
    let mut places = [255; 256];
    let mut k = 0;
    while k < OPS.len() {
        places[OPS[k].code as usize] = k as u8;
        k += 1;
    }
    places
};

pub fn find(code: u8) -> Option<&'static Op> {
    OPS.get(PLACES[code as usize] as usize)
}

// T of these calls is the second container.
pub fn has_second(act: Act) -> bool {
    matches!(act, Append | SplitOff | Clone | Same | SameAsVector | FromIter)
}

// T is of the first's kind, save where it is always a vector.
pub fn second_kind(act: Act, kind: Kind) -> Kind {
    if matches!(act, SameAsVector | FromIter) { Vector } else { kind }
}

pub fn is_part(act: Act) -> bool {
    matches!(act, Range | AsSlice | AsRef | Deref | AsMutSlice | DerefMut)
}

// The call without an allowance, of one that has it.
pub fn plain(act: Act) -> Option<Act> {
    match act {
        InsertWithin => Some(Insert),
        RemoveWithin => Some(Remove),
        _ => None,
    }
}

// Both look at the text on the desk alone.
pub fn has_text(act: Act) -> bool {
    matches!(act, ReadBack | Check)
}

// A done call answers yes or no.
pub fn is_question(act: Act) -> bool {
    matches!(act, IsEmpty | Same | SameAsVector | Check)
}

// These put b into a container.
pub fn has_entry(act: Act) -> bool {
    matches!(act, Write | PushBack | PushFront | Insert | InsertWithin | Resize | FromElem | AsMutSlice | DerefMut)
}

// These look at a.
pub fn has_position(act: Act) -> bool {
    matches!(act, WithCapacity | FromElem | Read | AskRange | Reserve | TryReserve | TryReserveExact | Write | Insert | Remove | SwapRemove)
        || matches!(act, Truncate | Resize | Extend | Range | AsMutSlice | DerefMut | SplitOff | PeekFront | PeekBack | Store | Check)
        || matches!(act, InsertWithin | RemoveWithin)
}

// Whether a done call may put entries into the first container, and into the second.
pub fn puts(act: Act) -> [bool; 2] {
    let first = matches!(act, Write | PushBack | PushFront | Insert | InsertWithin | Resize | Extend | Append);
    [first, matches!(act, SplitOff | Clone | FromIter)]
}

// Whether it may take entries out of them.
pub fn takes(act: Act) -> [bool; 2] {
    [matches!(act, Write | PopBack | PopFront | Remove | RemoveWithin | SwapRemove | Truncate | Resize | Clear | SplitOff), act == Append]
}
