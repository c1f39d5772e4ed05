//! `include/rvvbox.h`, as far as the wrapper calls it. A test compares it with the header.

/// What a host has no more than a pointer to.
#[repr(C)]
pub struct Kernel {
    nothing: [u8; 0],
}

/// The same of a session.
#[repr(C)]
pub struct Session {
    nothing: [u8; 0],
}

#[repr(C)]
#[derive(Clone, Copy, Debug, Default, PartialEq, Eq)]
pub struct Bound {
    pub low: u64,
    pub high: u64,
}

#[repr(C)]
#[derive(Clone, Copy, Debug, Default, PartialEq, Eq)]
pub struct Refusal {
    pub status: u32,
    pub rule: u32,
    pub address: u32,
    pub offset: u32,
    pub place: usize,
    pub bound: Bound,
    pub reserved: u64,
}

#[repr(C)]
#[derive(Clone, Copy)]
pub struct Argument {
    pub kind: u32,
    pub value: u32,
    pub bytes: *mut c_void,
    pub size: usize,
}

#[repr(C)]
#[derive(Clone, Copy, Debug, Default, PartialEq, Eq)]
pub struct Parameter {
    pub kind: u32,
    pub lo: u32,
    pub hi: u32,
    pub size: u32,
}

#[repr(C)]
#[derive(Clone, Copy, Debug, Default, PartialEq, Eq)]
pub struct Scalars {
    pub a0: u32,
    pub a1: u32,
    pub a2: u32,
    pub a3: u32,
    pub a4: u32,
    pub a5: u32,
    pub a6: u32,
    pub a7: u32,
}

/// How far a session is: whether its run has ended (1) or not (0), and the steps done since it was opened.
#[repr(C)]
#[derive(Clone, Copy, Debug, Default, PartialEq, Eq)]
pub struct Progress {
    pub ended: u32,
    pub reserved: u32,
    pub steps: u64,
}

/// The registers of a session's run as they stand.
#[repr(C)]
#[derive(Clone, Copy, Debug, Default, PartialEq, Eq)]
pub struct Registers {
    pub pc: u32,
    pub vl: u32,
    pub vtype: u32,
    pub vxrm: u32,
    pub vxsat: u32,
    pub ended: u32,
    pub x: [u32; 32],
    pub steps: u64,
}

use std::ffi::{c_char, c_void};

extern "C" {
    pub fn rvvbox_version() -> u32;
    pub fn rvvbox_accept(image: *const c_void, image_size: usize, vlen: u32, out: *mut *mut Kernel, refusal: *mut Refusal) -> u32;
    pub fn rvvbox_explain(image: *const c_void, image_size: usize, vlen: u32, text: *mut c_char, text_size: usize, needed: *mut usize) -> u32;
    pub fn rvvbox_attach(image: *const c_void, image_size: usize, certificate: *const c_void, certificate_size: usize,
        out: *mut c_void, out_size: usize, needed: *mut usize, refusal: *mut Refusal) -> u32;
    pub fn rvvbox_make(image: *const c_void, image_size: usize, vlen: u32, parameters: *const Parameter,
        out: *mut c_void, out_size: usize, needed: *mut usize, refusal: *mut Refusal) -> u32;
    pub fn rvvbox_share(kernel: *mut Kernel, out: *mut *mut Kernel) -> u32;
    pub fn rvvbox_free(kernel: *mut Kernel);
    pub fn rvvbox_vlen_of(kernel: *mut Kernel) -> u32;
    pub fn rvvbox_parameters_of(kernel: *mut Kernel, parameters: *mut Parameter, count: usize) -> u32;
    pub fn rvvbox_bound_of(kernel: *mut Kernel, scalars: *const Scalars, bound: *mut Bound) -> u32;
    pub fn rvvbox_run(kernel: *mut Kernel, arguments: *const Argument, agnostic: u32, max: u64, steps: *mut u64, refusal: *mut Refusal) -> u32;
    pub fn rvvbox_open(kernel: *mut Kernel, arguments: *const Argument, agnostic: u32, max: u64, out: *mut *mut Session, refusal: *mut Refusal) -> u32;
    pub fn rvvbox_go_on(session: *mut Session, most: u64, progress: *mut Progress) -> u32;
    pub fn rvvbox_registers_of(session: *mut Session, registers: *mut Registers) -> u32;
    pub fn rvvbox_peek(session: *mut Session, address: u32, bytes: *mut c_void, size: usize) -> u32;
    pub fn rvvbox_close(session: *mut Session, arguments: *const Argument, refusal: *mut Refusal) -> u32;
    pub fn rvvbox_drop(session: *mut Session);
    pub fn rvvbox_status_name(status: u32) -> *const c_char;
    pub fn rvvbox_rule_name(status: u32, rule: u32) -> *const c_char;
}
