//! The exported functions and their structs, field for field. A slice crosses as a pointer and a length, and structs
//! cross by value. A flag is a byte here, so that every byte that an answer may have can be looked at.

use std::marker::PhantomData;

/// Bytes that a call is lent to read. Where they are borrowed as mutable, a call that writes to them all the same can be
/// found.
#[derive(Clone, Copy)]
pub struct Bytes<'a> {
    start: *const u8,
    length: usize,
    lent: PhantomData<&'a [u8]>,
}

impl<'a, T: AsRef<[u8]> + ?Sized> From<&'a T> for Bytes<'a> {
    fn from(bytes: &'a T) -> Self {
        let bytes = bytes.as_ref();
        Bytes { start: bytes.as_ptr(), length: bytes.len(), lent: PhantomData }
    }
}

impl<'a> From<&'a mut [u8]> for Bytes<'a> {
    fn from(bytes: &'a mut [u8]) -> Self {
        Bytes { start: bytes.as_mut_ptr(), length: bytes.len(), lent: PhantomData }
    }
}

/// A length or a count.
#[repr(C)]
#[derive(Clone, Copy, Debug, PartialEq, Eq)]
pub struct Answer {
    pub ok: u8,
    pub refusal: u8,
    pub value: usize,
}

#[repr(C)]
#[derive(Clone, Copy, Debug)]
pub struct Control {
    pub reply: u8,
    pub compressed: u8,
    pub hint: u8,
}

/// How many frames and fragments a receiver was offered and did not refuse, and how many of them had each answer.
#[repr(C)]
#[derive(Clone, Copy, Debug, Default, PartialEq, Eq)]
pub struct Tallies {
    pub offered: u64,
    pub more: u64,
    pub done: u64,
    pub wrong_length: u64,
    pub no_fragment: u64,
    pub overflow: u64,
    pub limit: u64,
    pub check: u64,
}

/// A receiver's state. Any overflow but 0 is one.
#[repr(C)]
#[derive(Clone, Copy, Debug, Default, PartialEq, Eq)]
pub struct Receiver {
    pub held: usize,
    pub nfrag: usize,
    pub count: u8,
    pub crc_mask: u8,
    pub overflow: u8,
    pub tallies: Tallies,
}

#[repr(C)]
#[derive(Clone, Copy, Debug, PartialEq, Eq)]
pub struct Fresh {
    pub ok: u8,
    pub refusal: u8,
    pub receiver: Receiver,
}

#[repr(C)]
#[derive(Clone, Copy, Debug, PartialEq, Eq)]
pub struct Pushed {
    pub kind: u8,
    pub refusal: u8,
    pub cause: u8,
    pub length: usize,
    pub receiver: Receiver,
}

/// The most bytes of a name.
pub const MAX_NAME: usize = 8;
/// How many states can be kept.
pub const PLACES: usize = 8;

/// A state under the name in the first `len` bytes. Where `len` is not 1 to 8 none is kept here.
#[repr(C)]
#[derive(Clone, Copy, Debug, Default, PartialEq, Eq)]
pub struct KeptSlot {
    pub len: usize,
    pub name: [u8; MAX_NAME],
    pub receiver: Receiver,
}

/// The kept states. The store of each is in the lent bytes, at its place.
#[repr(C)]
#[derive(Clone, Copy, Debug, Default, PartialEq, Eq)]
pub struct Kept {
    pub slots: [KeptSlot; PLACES],
}

#[repr(C)]
#[derive(Clone, Copy, Debug, PartialEq, Eq)]
pub struct Keeping {
    pub ok: u8,
    pub refusal: u8,
    pub place: usize,
    pub kept: Kept,
}

#[repr(C)]
#[derive(Clone, Copy, Debug, PartialEq, Eq)]
pub struct Encoded {
    pub ok: u8,
    pub refusal: u8,
    pub aprs_type: u8,
    pub length: usize,
}

#[repr(C)]
#[derive(Clone, Copy, Debug, PartialEq, Eq)]
pub struct Summary {
    pub ok: u8,
    pub refusal: u8,
    pub aprs_type: u8,
    pub ui: u8,
    pub digis: usize,
}

#[repr(C)]
#[derive(Clone, Copy, Debug, PartialEq, Eq)]
pub struct Decoded {
    pub ok: u8,
    pub refusal: u8,
    pub command: u8,
    pub length: usize,
}

#[repr(C)]
#[derive(Clone, Copy, Debug, PartialEq, Eq)]
pub struct Preview {
    pub ok: u8,
    pub refusal: u8,
    pub length: usize,
    pub count: usize,
}

unsafe extern "C" {
    fn xara_crc16_genibus(data: *const u8, data_len: usize) -> u16;
    fn xara_count_for_field(total: usize, field: usize) -> Answer;
    fn xara_fragment(
        message: *const u8,
        message_len: usize,
        field: usize,
        mask: u8,
        k: usize,
        out: *mut u8,
        out_len: usize,
    ) -> Answer;
    fn xara_build_frame(
        field: usize,
        data: *const u8,
        data_len: usize,
        control: Control,
        marker: u8,
        out: *mut u8,
        out_len: usize,
    ) -> Answer;
    fn xara_receiver_new(crc_mask: u8) -> Fresh;
    fn xara_receiver_push(
        receiver: Receiver,
        store: *mut u8,
        store_len: usize,
        frame: *const u8,
        frame_len: usize,
        field: usize,
    ) -> Pushed;
    fn xara_receiver_join(
        receiver: Receiver,
        store: *mut u8,
        store_len: usize,
        f: *const u8,
        f_len: usize,
        n: usize,
    ) -> Pushed;
    fn xara_receiver_reset(receiver: Receiver) -> Receiver;
    fn xara_kept_none() -> Kept;
    fn xara_kept_keep(
        kept: Kept,
        receiver: Receiver,
        store: *const u8,
        store_len: usize,
        lent: *mut u8,
        lent_len: usize,
        name: *const u8,
        name_len: usize,
    ) -> Keeping;
    fn xara_kept_return(
        kept: Kept,
        store: *mut u8,
        store_len: usize,
        lent: *const u8,
        lent_len: usize,
        name: *const u8,
        name_len: usize,
    ) -> Fresh;
    fn xara_kept_drop(kept: Kept, lent: *const u8, lent_len: usize, name: *const u8, name_len: usize) -> Keeping;
    fn xara_encode(command: u8, data: *const u8, data_len: usize, out: *mut u8, out_len: usize) -> Encoded;
    fn xara_summary(command: u8, data: *const u8, data_len: usize) -> Summary;
    fn xara_preview(command: u8, data: *const u8, data_len: usize, field: usize, mask: u8) -> Preview;
    fn xara_decode(message: *const u8, message_len: usize, out: *mut u8, out_len: usize) -> Decoded;
    fn xara_decode_mended(message: *const u8, message_len: usize, out: *mut u8, out_len: usize) -> Decoded;
}

pub fn crc<'a>(data: impl Into<Bytes<'a>>) -> u16 {
    let data = data.into();
    unsafe { xara_crc16_genibus(data.start, data.length) }
}

pub fn count(total: usize, field: usize) -> Answer {
    unsafe { xara_count_for_field(total, field) }
}

pub fn fragment<'a>(message: impl Into<Bytes<'a>>, field: usize, mask: u8, k: usize, out: &mut [u8]) -> Answer {
    let message = message.into();
    unsafe { xara_fragment(message.start, message.length, field, mask, k, out.as_mut_ptr(), out.len()) }
}

pub fn frame<'a>(field: usize, data: impl Into<Bytes<'a>>, control: Control, marker: u8, out: &mut [u8]) -> Answer {
    let data = data.into();
    unsafe { xara_build_frame(field, data.start, data.length, control, marker, out.as_mut_ptr(), out.len()) }
}

pub fn encode<'a>(command: u8, data: impl Into<Bytes<'a>>, out: &mut [u8]) -> Encoded {
    let data = data.into();
    unsafe { xara_encode(command, data.start, data.length, out.as_mut_ptr(), out.len()) }
}

pub fn summary<'a>(command: u8, data: impl Into<Bytes<'a>>) -> Summary {
    let data = data.into();
    unsafe { xara_summary(command, data.start, data.length) }
}

pub fn preview<'a>(command: u8, data: impl Into<Bytes<'a>>, field: usize, mask: u8) -> Preview {
    let data = data.into();
    unsafe { xara_preview(command, data.start, data.length, field, mask) }
}

pub fn decode<'a>(message: impl Into<Bytes<'a>>, out: &mut [u8]) -> Decoded {
    let message = message.into();
    unsafe { xara_decode(message.start, message.length, out.as_mut_ptr(), out.len()) }
}

pub fn decode_mended<'a>(message: impl Into<Bytes<'a>>, out: &mut [u8]) -> Decoded {
    let message = message.into();
    unsafe { xara_decode_mended(message.start, message.length, out.as_mut_ptr(), out.len()) }
}

impl Receiver {
    pub fn fresh(mask: u8) -> Fresh {
        unsafe { xara_receiver_new(mask) }
    }

    pub fn push<'a>(self, store: &mut [u8], frame: impl Into<Bytes<'a>>, field: usize) -> Pushed {
        let frame = frame.into();
        unsafe { xara_receiver_push(self, store.as_mut_ptr(), store.len(), frame.start, frame.length, field) }
    }

    pub fn join<'a>(self, store: &mut [u8], f: impl Into<Bytes<'a>>, n: usize) -> Pushed {
        let f = f.into();
        unsafe { xara_receiver_join(self, store.as_mut_ptr(), store.len(), f.start, f.length, n) }
    }

    pub fn reset(self) -> Self {
        unsafe { xara_receiver_reset(self) }
    }
}

impl Kept {
    pub fn none() -> Self {
        unsafe { xara_kept_none() }
    }

    pub fn keep<'a>(
        self,
        receiver: Receiver,
        store: impl Into<Bytes<'a>>,
        lent: &mut [u8],
        name: impl Into<Bytes<'a>>,
    ) -> Keeping {
        let (store, name) = (store.into(), name.into());
        let (lent, lent_len) = (lent.as_mut_ptr(), lent.len());
        unsafe { xara_kept_keep(self, receiver, store.start, store.length, lent, lent_len, name.start, name.length) }
    }

    pub fn return_to<'a>(self, store: &mut [u8], lent: impl Into<Bytes<'a>>, name: impl Into<Bytes<'a>>) -> Fresh {
        let (lent, name) = (lent.into(), name.into());
        let (store, store_len) = (store.as_mut_ptr(), store.len());
        unsafe { xara_kept_return(self, store, store_len, lent.start, lent.length, name.start, name.length) }
    }

    pub fn drop_name<'a>(self, lent: impl Into<Bytes<'a>>, name: impl Into<Bytes<'a>>) -> Keeping {
        let (lent, name) = (lent.into(), name.into());
        unsafe { xara_kept_drop(self, lent.start, lent.length, name.start, name.length) }
    }
}

/// Why a frame or a fragment is dropped, by its number.
#[derive(Clone, Copy, Debug, PartialEq, Eq)]
pub enum Cause {
    WrongLength = 1,
    NoFragment = 2,
    Overflow = 3,
    Limit = 4,
    Check = 5,
}

/// What a push or a join answers; `Unknown` is no answer of documents 01 and 02.
#[derive(Clone, Copy, Debug, PartialEq, Eq)]
pub enum Heard {
    Refused(u8),
    Dropped(Cause),
    More,
    Done(usize),
    Unknown(u8),
}

/// What an answer says: its value, or its refusal.
impl Answer {
    pub fn told(self) -> Result<usize, u8> {
        told(self.ok, self.refusal, self.value)
    }
}

impl Fresh {
    pub fn told(self) -> Result<Receiver, u8> {
        told(self.ok, self.refusal, self.receiver)
    }
}

impl Keeping {
    /// The place of the name.
    pub fn told(self) -> Result<usize, u8> {
        told(self.ok, self.refusal, self.place)
    }
}

impl Encoded {
    /// The message's length and the type.
    pub fn told(self) -> Result<(usize, u8), u8> {
        told(self.ok, self.refusal, (self.length, self.aprs_type))
    }
}

impl Summary {
    /// The type, the number of digipeaters, and whether control is 03 or 13.
    pub fn told(self) -> Result<(u8, usize, bool), u8> {
        told(self.ok, self.refusal, (self.aprs_type, self.digis, self.ui != 0))
    }
}

impl Decoded {
    /// The data's length and the command.
    pub fn told(self) -> Result<(usize, u8), u8> {
        told(self.ok, self.refusal, (self.length, self.command))
    }
}

impl Preview {
    /// The message's length and the number of its fragments.
    pub fn told(self) -> Result<(usize, usize), u8> {
        told(self.ok, self.refusal, (self.length, self.count))
    }
}

impl Pushed {
    pub fn heard(self) -> Heard {
        match (self.kind, self.cause) {
            (0, _) => Heard::Refused(self.refusal),
            (1, 1) => Heard::Dropped(Cause::WrongLength),
            (1, 2) => Heard::Dropped(Cause::NoFragment),
            (1, 3) => Heard::Dropped(Cause::Overflow),
            (1, 4) => Heard::Dropped(Cause::Limit),
            (1, 5) => Heard::Dropped(Cause::Check),
            (2, _) => Heard::More,
            (3, _) => Heard::Done(self.length),
            (kind, _) => Heard::Unknown(kind),
        }
    }
}

fn told<T>(ok: u8, refusal: u8, value: T) -> Result<T, u8> {
    if ok != 0 { Ok(value) } else { Err(refusal) }
}
