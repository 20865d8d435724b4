//! Eight places for what is kept under names, as document 02 asks for in E8. A place is free, or has a name and a clone.

/// A name of another length than 1 to 8 bytes, or one that is not kept.
pub const BAD_NAME: u8 = 20;
/// A new name when eight are kept.
pub const ALL_KEPT: u8 = 21;

const PLACES: usize = 8;

#[derive(Clone, Debug)]
pub struct Kept<T>([Option<(Vec<u8>, T)>; PLACES]);

impl<T: Clone> Kept<T> {
    /// Nothing is kept.
    pub fn none() -> Self {
        Kept([const { None }; PLACES])
    }

    /// Keeps a clone under a name and gives its place: a known name is replaced in its place, a new one goes to the first
    /// that is free.
    pub fn keep(&mut self, name: &[u8], kept: &T) -> Result<usize, u8> {
        if name.is_empty() || name.len() > 8 {
            return Err(BAD_NAME);
        }
        let free = || self.0.iter().position(Option::is_none);
        let place = self.find(name).or_else(|_| free().ok_or(ALL_KEPT))?;
        self.0[place] = Some((name.to_vec(), kept.clone()));
        Ok(place)
    }

    /// A clone of what is kept under a name, which stays kept.
    pub fn returned(&self, name: &[u8]) -> Result<T, u8> {
        let kept = self.0.iter().flatten().find(|(known, _)| known == name);
        kept.map(|(_, clone)| clone.clone()).ok_or(BAD_NAME)
    }

    /// Makes the place of a name free, and gives it.
    pub fn drop_name(&mut self, name: &[u8]) -> Result<usize, u8> {
        let place = self.find(name)?;
        self.0[place] = None;
        Ok(place)
    }

    fn find(&self, name: &[u8]) -> Result<usize, u8> {
        let is_named = |place: &Option<(Vec<u8>, T)>| place.as_ref().is_some_and(|(known, _)| known == name);
        self.0.iter().position(is_named).ok_or(BAD_NAME)
    }
}

#[cfg(test)]
mod tests {
    use super::Kept;
    use crate::hex::from_hex;
    use crate::{Answer, Receiver};

    const FRAMES: [&str; 2] = ["C040ACB70101A38C", "4000104014005242"];

    fn heard(receiver: &mut Receiver, frame: &str) -> Answer {
        receiver.push(&from_hex(frame).unwrap(), 5)
    }

    fn done(message: &str) -> Answer {
        Answer::Done(from_hex(message).unwrap())
    }

    /// A book with the numbers 0 to 7 under the names a to h.
    fn full() -> Kept<usize> {
        let mut kept = Kept::none();
        for (n, name) in (b'a'..=b'h').enumerate() {
            assert_eq!(kept.keep(&[name], &n), Ok(n));
        }
        kept
    }

    #[test]
    fn a_message_is_left_and_completed() {
        let (mut kept, mut receiver) = (Kept::none(), Receiver::new(0xF0));
        assert_eq!(heard(&mut receiver, FRAMES[0]), Answer::More);
        assert_eq!(kept.keep(b"net", &receiver), Ok(0));
        receiver = Receiver::new(0xF8);
        assert_eq!(heard(&mut receiver, FRAMES[1]), done("40001040"));
        for _ in 0..2 {
            receiver = kept.returned(b"net").unwrap();
            assert_eq!(heard(&mut receiver, FRAMES[1]), done("40ACB701001040"));
        }
    }

    #[test]
    fn a_known_name_is_replaced_and_a_ninth_is_refused() {
        let mut kept = full();
        assert_eq!(kept.keep(b"i", &8), Err(21));
        assert_eq!(kept.keep(b"c", &9), Ok(2));
        assert_eq!(kept.returned(b"c"), Ok(9));
        assert_eq!(kept.returned(b"i"), Err(20));
    }

    #[test]
    fn a_dropped_name_makes_the_first_free_place() {
        let mut kept = full();
        assert_eq!(kept.drop_name(b"f"), Ok(5));
        assert_eq!(kept.drop_name(b"b"), Ok(1));
        assert_eq!(kept.drop_name(b"b"), Err(20));
        assert_eq!(kept.keep(b"h", &8), Ok(7));
        assert_eq!(kept.keep(b"i", &9), Ok(1));
        assert_eq!(kept.keep(b"j", &10), Ok(5));
        assert_eq!(kept.keep(b"k", &11), Err(21));
    }

    #[test]
    fn names_have_1_to_8_bytes() {
        let mut kept = Kept::none();
        for (len, place) in [(0, Err(20)), (1, Ok(0)), (8, Ok(1)), (9, Err(20)), (257, Err(20))] {
            assert_eq!(kept.keep(&vec![0; len], &len), place);
            assert_eq!(kept.returned(&vec![0; len]), place.map(|_| len));
        }
        assert_eq!(full().keep(&[], &8), Err(20));
    }
}
