//! What the Rust has instead of kept states: clones of its receivers in a map of names, eight at most.

use crate::channels::Hearing;
use crate::receiver::History;
use crate::xara::{Kept, KeptSlot, MAX_NAME, PLACES};
use std::collections::{BTreeMap, BTreeSet};

/// A receiver that was left, in its place among the lent bytes, and the message that is half heard.
#[derive(Clone)]
pub struct Left {
    pub place: usize,
    pub history: History,
    pub hearing: Option<Hearing>,
    /// How often it was returned to.
    pub returns: usize,
}

#[derive(Default)]
pub struct Names(BTreeMap<Vec<u8>, Left>);

impl Names {
    /// The kept states that belong to this map.
    pub fn kept(&self) -> Kept {
        let mut kept = Kept::default();
        for (name, left) in &self.0 {
            kept.slots[left.place] = KeptSlot::of(name, left.history.state());
        }
        kept
    }

    pub fn get(&self, name: &[u8]) -> Option<&Left> {
        self.0.get(name)
    }

    /// The kept names in their order.
    pub fn names(&self) -> Vec<&[u8]> {
        self.0.keys().map(Vec::as_slice).collect()
    }

    /// How many masks the kept receivers have.
    pub fn masks(&self) -> usize {
        self.0.values().map(|left| left.history.state().crc_mask).collect::<BTreeSet<_>>().len()
    }

    /// The places that are free.
    pub fn free(&self) -> Vec<usize> {
        let taken: BTreeSet<_> = self.0.values().map(|left| left.place).collect();
        (0..PLACES).filter(|place| !taken.contains(place)).collect()
    }

    /// A receiver under a name: its place, the one that the name has, or the first that is free.
    pub fn keep(&mut self, name: &[u8], history: &History, hearing: Option<Hearing>) -> Result<usize, u8> {
        if name.is_empty() || name.len() > MAX_NAME {
            return Err(20);
        }
        let known = self.get(name).map(|left| left.place);
        let place = known.or(self.free().first().copied()).ok_or(21u8)?;
        self.0.insert(name.to_vec(), Left { place, history: history.clone(), hearing, returns: 0 });
        self.show_flags(1);
        Ok(place)
    }

    /// The receiver under a name, as it was left.
    pub fn return_to(&mut self, name: &[u8]) -> Result<Left, u8> {
        let kept = self.0.get_mut(name).ok_or(20u8)?;
        let mut left = kept.clone();
        left.history.show_flag(1);
        kept.returns += 1;
        Ok(left)
    }

    /// Without a name: the place that it had.
    pub fn drop_name(&mut self, name: &[u8]) -> Result<usize, u8> {
        let left = self.0.remove(name).ok_or(20u8)?;
        self.show_flags(1);
        Ok(left.place)
    }

    /// Each overflow as this byte, which is not 0.
    pub fn show_flags(&mut self, byte: u8) {
        self.0.values_mut().for_each(|left| left.history.show_flag(byte));
    }
}
