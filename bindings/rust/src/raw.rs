//! The exported functions as they are: a slice crosses as a pointer and a length, and structs cross by value. The only module
//! with unsafe code: each call lends whole slices, which Rust's borrows keep apart and alive. A `bool` of C is a byte here: no byte
//! that an answer may have is undefined then.
#![allow(unsafe_code)]

#[repr(C)]
#[derive(Clone, Copy)]
pub struct XaraAnswer {
    pub ok: u8,
    pub refusal: u8,
    pub value: usize,
}

#[repr(C)]
#[derive(Clone, Copy)]
pub struct XaraControl {
    pub reply: u8,
    pub compressed: u8,
    pub hint: u8,
}

#[repr(C)]
#[derive(Clone, Copy, Debug, PartialEq, Eq)]
pub struct XaraTallies {
    pub offered: u64,
    pub more: u64,
    pub done: u64,
    pub wrong_length: u64,
    pub no_fragment: u64,
    pub overflow: u64,
    pub limit: u64,
    pub check: u64,
}

#[repr(C)]
#[derive(Clone, Copy, Debug, PartialEq, Eq)]
pub struct XaraReceiver {
    pub held: usize,
    pub nfrag: usize,
    pub count: u8,
    pub crc_mask: u8,
    pub overflow: u8,
    pub tallies: XaraTallies,
}

#[repr(C)]
#[derive(Clone, Copy)]
pub struct XaraFresh {
    pub ok: u8,
    pub refusal: u8,
    pub receiver: XaraReceiver,
}

#[repr(C)]
#[derive(Clone, Copy)]
pub struct XaraPushed {
    pub kind: u8,
    pub refusal: u8,
    pub cause: u8,
    pub length: usize,
    pub receiver: XaraReceiver,
}

#[repr(C)]
#[derive(Clone, Copy, Debug, PartialEq, Eq)]
pub struct XaraSlot {
    pub len: usize,
    pub name: [u8; 8],
    pub receiver: XaraReceiver,
}

#[repr(C)]
#[derive(Clone, Copy, Debug, PartialEq, Eq)]
pub struct XaraKept {
    pub slots: [XaraSlot; 8],
}

#[repr(C)]
#[derive(Clone, Copy)]
pub struct XaraKeeping {
    pub ok: u8,
    pub refusal: u8,
    pub place: usize,
    pub kept: XaraKept,
}

#[repr(C)]
#[derive(Clone, Copy)]
pub struct XaraEncoded {
    pub ok: u8,
    pub refusal: u8,
    pub aprs_type: u8,
    pub length: usize,
}

#[repr(C)]
#[derive(Clone, Copy)]
pub struct XaraPreview {
    pub ok: u8,
    pub refusal: u8,
    pub length: usize,
    pub count: usize,
}

#[repr(C)]
#[derive(Clone, Copy)]
pub struct XaraSummary {
    pub ok: u8,
    pub refusal: u8,
    pub aprs_type: u8,
    pub ui: u8,
    pub digis: usize,
}

#[repr(C)]
#[derive(Clone, Copy)]
pub struct XaraDecoded {
    pub ok: u8,
    pub refusal: u8,
    pub command: u8,
    pub length: usize,
}

mod linked {
    use super::*;

    unsafe extern "C" {
        pub fn xara_crc16_genibus(data: *const u8, data_len: usize) -> u16;
        pub safe fn xara_count_for_field(total: usize, field: usize) -> XaraAnswer;
        pub fn xara_fragment(
            message: *const u8,
            message_len: usize,
            field: usize,
            mask: u8,
            k: usize,
            out: *mut u8,
            out_len: usize,
        ) -> XaraAnswer;
        pub fn xara_build_frame(
            field: usize,
            data: *const u8,
            data_len: usize,
            control: XaraControl,
            marker: u8,
            out: *mut u8,
            out_len: usize,
        ) -> XaraAnswer;
        pub safe fn xara_receiver_new(crc_mask: u8) -> XaraFresh;
        pub fn xara_receiver_push(
            receiver: XaraReceiver,
            store: *mut u8,
            store_len: usize,
            frame: *const u8,
            frame_len: usize,
            field: usize,
        ) -> XaraPushed;
        pub fn xara_receiver_join(
            receiver: XaraReceiver,
            store: *mut u8,
            store_len: usize,
            f: *const u8,
            f_len: usize,
            n: usize,
        ) -> XaraPushed;
        pub safe fn xara_receiver_reset(receiver: XaraReceiver) -> XaraReceiver;
        pub safe fn xara_kept_none() -> XaraKept;
        pub fn xara_kept_keep(
            kept: XaraKept,
            receiver: XaraReceiver,
            store: *const u8,
            store_len: usize,
            lent: *mut u8,
            lent_len: usize,
            name: *const u8,
            name_len: usize,
        ) -> XaraKeeping;
        pub fn xara_kept_return(
            kept: XaraKept,
            store: *mut u8,
            store_len: usize,
            lent: *const u8,
            lent_len: usize,
            name: *const u8,
            name_len: usize,
        ) -> XaraFresh;
        pub fn xara_kept_drop(
            kept: XaraKept,
            lent: *const u8,
            lent_len: usize,
            name: *const u8,
            name_len: usize,
        ) -> XaraKeeping;
        pub fn xara_encode(command: u8, data: *const u8, data_len: usize, out: *mut u8, out_len: usize) -> XaraEncoded;
        pub fn xara_preview(command: u8, data: *const u8, data_len: usize, field: usize, mask: u8) -> XaraPreview;
        pub fn xara_summary(command: u8, data: *const u8, data_len: usize) -> XaraSummary;
        pub fn xara_decode(message: *const u8, message_len: usize, out: *mut u8, out_len: usize) -> XaraDecoded;
        pub fn xara_decode_mended(message: *const u8, message_len: usize, out: *mut u8, out_len: usize) -> XaraDecoded;
    }
}

pub use linked::{xara_count_for_field, xara_kept_none, xara_receiver_new, xara_receiver_reset};

pub fn xara_crc16_genibus(data: &[u8]) -> u16 {
    // SAFETY: the slice is lent whole for reading.
    unsafe { linked::xara_crc16_genibus(data.as_ptr(), data.len()) }
}

pub fn xara_fragment(message: &[u8], field: usize, mask: u8, k: usize, out: &mut [u8]) -> XaraAnswer {
    let (lent, room) = (out.as_mut_ptr(), out.len());
    // SAFETY: the slices are lent whole, one for reading and one for writing, and do not overlap.
    unsafe { linked::xara_fragment(message.as_ptr(), message.len(), field, mask, k, lent, room) }
}

pub fn xara_build_frame(field: usize, data: &[u8], control: XaraControl, marker: u8, out: &mut [u8]) -> XaraAnswer {
    let (lent, room) = (out.as_mut_ptr(), out.len());
    // SAFETY: the slices are lent whole, one for reading and one for writing, and do not overlap.
    unsafe { linked::xara_build_frame(field, data.as_ptr(), data.len(), control, marker, lent, room) }
}

pub fn xara_receiver_push(receiver: XaraReceiver, store: &mut [u8], frame: &[u8], field: usize) -> XaraPushed {
    let (lent, room) = (store.as_mut_ptr(), store.len());
    // SAFETY: the slices are lent whole, one for reading and one for writing, and do not overlap; any state is taken.
    unsafe { linked::xara_receiver_push(receiver, lent, room, frame.as_ptr(), frame.len(), field) }
}

pub fn xara_receiver_join(receiver: XaraReceiver, store: &mut [u8], f: &[u8], n: usize) -> XaraPushed {
    let (lent, room) = (store.as_mut_ptr(), store.len());
    // SAFETY: the slices are lent whole, one for reading and one for writing, and do not overlap; any state is taken.
    unsafe { linked::xara_receiver_join(receiver, lent, room, f.as_ptr(), f.len(), n) }
}

pub fn xara_kept_keep(
    kept: XaraKept,
    receiver: XaraReceiver,
    store: &[u8],
    lent: &mut [u8],
    name: &[u8],
) -> XaraKeeping {
    let (to, room) = (lent.as_mut_ptr(), lent.len());
    let (from, held) = (store.as_ptr(), store.len());
    // SAFETY: the slices are lent whole, two for reading and one for writing, which overlaps neither; any states are taken.
    unsafe { linked::xara_kept_keep(kept, receiver, from, held, to, room, name.as_ptr(), name.len()) }
}

pub fn xara_kept_return(kept: XaraKept, store: &mut [u8], lent: &[u8], name: &[u8]) -> XaraFresh {
    let (to, room) = (store.as_mut_ptr(), store.len());
    // SAFETY: the slices are lent whole, two for reading and one for writing, which overlaps neither; any states are taken.
    unsafe { linked::xara_kept_return(kept, to, room, lent.as_ptr(), lent.len(), name.as_ptr(), name.len()) }
}

pub fn xara_kept_drop(kept: XaraKept, lent: &[u8], name: &[u8]) -> XaraKeeping {
    // SAFETY: the slices are lent whole for reading; any states are taken.
    unsafe { linked::xara_kept_drop(kept, lent.as_ptr(), lent.len(), name.as_ptr(), name.len()) }
}

pub fn xara_encode(command: u8, data: &[u8], out: &mut [u8]) -> XaraEncoded {
    let (lent, room) = (out.as_mut_ptr(), out.len());
    // SAFETY: the slices are lent whole, one for reading and one for writing, and do not overlap.
    unsafe { linked::xara_encode(command, data.as_ptr(), data.len(), lent, room) }
}

pub fn xara_preview(command: u8, data: &[u8], field: usize, mask: u8) -> XaraPreview {
    // SAFETY: the slice is lent whole for reading.
    unsafe { linked::xara_preview(command, data.as_ptr(), data.len(), field, mask) }
}

pub fn xara_summary(command: u8, data: &[u8]) -> XaraSummary {
    // SAFETY: the slice is lent whole for reading.
    unsafe { linked::xara_summary(command, data.as_ptr(), data.len()) }
}

pub fn xara_decode(message: &[u8], out: &mut [u8]) -> XaraDecoded {
    let (lent, room) = (out.as_mut_ptr(), out.len());
    // SAFETY: the slices are lent whole, one for reading and one for writing, and do not overlap.
    unsafe { linked::xara_decode(message.as_ptr(), message.len(), lent, room) }
}

pub fn xara_decode_mended(message: &[u8], out: &mut [u8]) -> XaraDecoded {
    let (lent, room) = (out.as_mut_ptr(), out.len());
    // SAFETY: the slices are lent whole, one for reading and one for writing, and do not overlap.
    unsafe { linked::xara_decode_mended(message.as_ptr(), message.len(), lent, room) }
}
