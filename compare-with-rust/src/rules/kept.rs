//! The calls on kept states by document 02's words (E8), on any kept states, also on those that a caller makes up. A place whose
//! name has not 1 to 8 bytes is free, whatever else it holds.

use super::{bad_mask, oversized, shown};
use crate::xara::{Fresh, Keeping, Kept, KeptSlot, MAX_NAME, Receiver};
use answers::MAX_MESSAGE;
use std::ops::Range;

/// "In 40,000 lent bytes for their stores."
pub const LENT: usize = 40_000;

/// "Keeping copies the whole store into the first free 5,000 of them .. Keeping under a known name replaces it in its place."
/// What is refused changes nothing.
pub fn keep(kept: Kept, receiver: Receiver, store: &[u8], lent: &mut [u8], name: &[u8]) -> Keeping {
    let states = [receiver].into_iter().chain(states(&kept));
    let place = checked(states, Some(store.len()), lent.len()).and_then(|()| place_for(&kept, name));
    let Ok(place) = place else { return Keeping::of(place, kept) };
    lent[range(place)].copy_from_slice(store);
    Keeping::of(Ok(place), with(kept, place, KeptSlot::of(name, receiver)))
}

/// "A return copies it back, and the name stays kept."
pub fn return_to(kept: Kept, store: &mut [u8], lent: &[u8], name: &[u8]) -> Fresh {
    let place = checked(states(&kept), Some(store.len()), lent.len()).and_then(|()| place_of(&kept, name));
    if let Ok(place) = place {
        store.copy_from_slice(&lent[range(place)]);
    }
    Fresh::of(place.map(|place| shown(kept.slots[place].receiver)))
}

/// "Dropping a name makes it free and writes no lent byte."
pub fn drop_name(kept: Kept, lent: &[u8], name: &[u8]) -> Keeping {
    let place = checked(states(&kept), None, lent.len()).and_then(|()| place_of(&kept, name));
    let left = place.map_or(kept, |place| with(kept, place, KeptSlot::default()));
    Keeping::of(place, left)
}

/// "17, also when the lent bytes are not 40,000, then 9, for each state handed in or kept." 17 is also for a store that has not
/// 5,000 bytes, where one is handed in.
fn checked(states: impl Iterator<Item = Receiver> + Clone, store: Option<usize>, lent: usize) -> Result<(), u8> {
    let store_ok = store.is_none_or(|size| size == MAX_MESSAGE);
    if lent != LENT || !store_ok || states.clone().any(oversized) {
        return Err(17);
    }
    if states.clone().any(bad_mask) { Err(9) } else { Ok(()) }
}

/// Where a name goes: "20 for a name of another length .. then 21 for a new name when eight are kept."
fn place_for(kept: &Kept, name: &[u8]) -> Result<usize, u8> {
    if !named(name.len()) {
        return Err(20);
    }
    let known = place_of(kept, name).ok();
    known.or_else(|| kept.slots.iter().position(|slot| !named(slot.len))).ok_or(21)
}

/// Where a name is: "20 for a name of another length, or for one not kept when it is returned to or dropped." Of two places with
/// one name the first counts.
fn place_of(kept: &Kept, name: &[u8]) -> Result<usize, u8> {
    let is_there = |slot: &KeptSlot| named(slot.len) && &slot.name[..slot.len] == name;
    kept.slots.iter().position(is_there).ok_or(20)
}

/// "Names of 1 to 8 bytes."
fn named(len: usize) -> bool {
    (1..=MAX_NAME).contains(&len)
}

/// The states that are kept.
fn states(kept: &Kept) -> impl Iterator<Item = Receiver> + Clone {
    kept.slots.iter().filter(|slot| named(slot.len)).map(|slot| slot.receiver)
}

/// Another slot at a place, and every overflow as 0 or 1.
fn with(mut kept: Kept, place: usize, slot: KeptSlot) -> Kept {
    kept.slots[place] = slot;
    Kept { slots: kept.slots.map(|slot| KeptSlot { receiver: shown(slot.receiver), ..slot }) }
}

/// The lent bytes of a place.
fn range(place: usize) -> Range<usize> {
    MAX_MESSAGE * place..MAX_MESSAGE * (place + 1)
}
