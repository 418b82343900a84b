//! The calls of include/clarity.h.
#![allow(unsafe_code)]

const WRITE: u32 = 4;
const FIRST_ROOM: usize = 1 << 16;

#[repr(C)]
pub(crate) struct Handle {
    at: *mut u8,
    is_open: bool,
}

impl Handle {
    const CLOSED: Handle = Handle { at: std::ptr::null_mut(), is_open: false };
}

extern "C" {
    fn clarity_answer(
        bytes: *const u8,
        bytes_length: usize,
        ends: *const usize,
        ends_length: usize,
        words: usize,
        out: *mut u8,
        out_length: usize,
        needed: *mut usize,
    ) -> u32;
    fn clarity_value_wire(text: *const u8, text_length: usize, out: *mut u8, out_length: usize, needed: *mut usize) -> u32;
    fn clarity_value_text(bytes: *const u8, bytes_length: usize, out: *mut u8, out_length: usize, needed: *mut usize) -> u32;
    fn clarity_costs_read(file: *const u8, file_length: usize, costs: *mut Handle) -> u32;
    fn clarity_costs_close(costs: *mut Handle);
    fn clarity_node_open(
        costs: *mut Handle,
        file: *const u8,
        file_length: usize,
        key: *const u8,
        key_length: usize,
        node: *mut Handle,
    ) -> u32;
    fn clarity_node_run(node: *mut Handle, file: *const u8, file_length: usize) -> u32;
    fn clarity_node_call(
        node: *mut Handle,
        bytes: *const u8,
        bytes_length: usize,
        ends: *const usize,
        ends_length: usize,
        limits: *const u64,
        limits_length: usize,
    ) -> u32;
    fn clarity_node_peek(
        node: *mut Handle,
        bytes: *const u8,
        bytes_length: usize,
        ends: *const usize,
        ends_length: usize,
        limits: *const u64,
        limits_length: usize,
    ) -> u32;
    fn clarity_node_check(
        node: *mut Handle,
        contract: *const u8,
        contract_length: usize,
        version: u32,
        source: *const u8,
        source_length: usize,
    ) -> u32;
    fn clarity_node_state(node: *mut Handle) -> u32;
    fn clarity_node_height(node: *mut Handle) -> u64;
    fn clarity_node_done(node: *mut Handle) -> u32;
    fn clarity_node_length(node: *mut Handle) -> usize;
    fn clarity_node_copy(node: *mut Handle, out: *mut u8, out_length: usize) -> usize;
    fn clarity_node_count(node: *mut Handle) -> usize;
    fn clarity_node_numbers(node: *mut Handle, out: *mut u64, out_length: usize) -> usize;
    fn clarity_node_close(node: *mut Handle);
}

// Safety of each call: a pointer comes from a slice or a reference, with the slice's length beside it, so it isn't null; what is
// written is borrowed as `&mut`, so it overlaps nothing; and a handle is what the library made it.

/// What a call wrote: its number, and the bytes; one whose room is too short is made again with what it needs.
fn written(call: impl Fn(&mut [u8], &mut usize) -> u32) -> (u32, Vec<u8>) {
    let (mut out, mut needed) = (vec![0; FIRST_ROOM], 0);
    loop {
        let number = call(&mut out, &mut needed);
        if number != WRITE {
            out.truncate(needed);
            return (number, out);
        }
        out.resize(needed, 0);
    }
}

pub(crate) fn answer(bytes: &[u8], ends: &[usize], words: usize) -> (u32, Vec<u8>) {
    written(|out, needed| unsafe {
        clarity_answer(bytes.as_ptr(), bytes.len(), ends.as_ptr(), ends.len(), words, out.as_mut_ptr(), out.len(), needed)
    })
}

pub(crate) fn value_wire(text: &[u8]) -> (u32, Vec<u8>) {
    written(|out, needed| unsafe { clarity_value_wire(text.as_ptr(), text.len(), out.as_mut_ptr(), out.len(), needed) })
}

pub(crate) fn value_text(bytes: &[u8]) -> (u32, Vec<u8>) {
    written(|out, needed| unsafe { clarity_value_text(bytes.as_ptr(), bytes.len(), out.as_mut_ptr(), out.len(), needed) })
}

pub(crate) fn read_costs(file: &[u8]) -> (u32, Handle) {
    let mut costs = Handle::CLOSED;
    let number = unsafe { clarity_costs_read(file.as_ptr(), file.len(), &mut costs) };
    (number, costs)
}

pub(crate) fn close_costs(costs: &mut Handle) {
    unsafe { clarity_costs_close(costs) }
}

pub(crate) fn open(costs: &mut Handle, file: &[u8], key: &[u8]) -> (u32, Handle) {
    let mut node = Handle::CLOSED;
    let number = unsafe { clarity_node_open(costs, file.as_ptr(), file.len(), key.as_ptr(), key.len(), &mut node) };
    (number, node)
}

pub(crate) fn run(handle: &mut Handle, file: &[u8]) -> u32 {
    unsafe { clarity_node_run(handle, file.as_ptr(), file.len()) }
}

pub(crate) fn call(handle: &mut Handle, bytes: &[u8], ends: &[usize], limits: &[u64]) -> u32 {
    unsafe { clarity_node_call(handle, bytes.as_ptr(), bytes.len(), ends.as_ptr(), ends.len(), limits.as_ptr(), limits.len()) }
}

pub(crate) fn peek(handle: &mut Handle, bytes: &[u8], ends: &[usize], limits: &[u64]) -> u32 {
    unsafe { clarity_node_peek(handle, bytes.as_ptr(), bytes.len(), ends.as_ptr(), ends.len(), limits.as_ptr(), limits.len()) }
}

pub(crate) fn check(handle: &mut Handle, contract: &[u8], version: u32, source: &[u8]) -> u32 {
    unsafe { clarity_node_check(handle, contract.as_ptr(), contract.len(), version, source.as_ptr(), source.len()) }
}

pub(crate) fn numbers(handle: &mut Handle) -> Vec<u64> {
    let mut out = vec![0; unsafe { clarity_node_count(handle) }];
    let copied = unsafe { clarity_node_numbers(handle, out.as_mut_ptr(), out.len()) };
    out.truncate(copied);
    out
}

pub(crate) fn state(handle: &mut Handle) -> u32 {
    unsafe { clarity_node_state(handle) }
}

pub(crate) fn height(handle: &mut Handle) -> u64 {
    unsafe { clarity_node_height(handle) }
}

pub(crate) fn done(handle: &mut Handle) -> u32 {
    unsafe { clarity_node_done(handle) }
}

pub(crate) fn text(handle: &mut Handle) -> Vec<u8> {
    let mut out = vec![0; unsafe { clarity_node_length(handle) }];
    let copied = unsafe { clarity_node_copy(handle, out.as_mut_ptr(), out.len()) };
    out.truncate(copied);
    out
}

pub(crate) fn close(handle: &mut Handle) {
    unsafe { clarity_node_close(handle) }
}
