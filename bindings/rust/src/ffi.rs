//! The calls of `libccsds123`, as `ccsds123.h` declares and documents them.

use std::ffi::c_void;

#[repr(C)]
#[derive(Clone, Copy)]
pub struct Params {
    pub size: u32,
    pub columns: u32,
    pub rows: u32,
    pub bands: u32,
    pub bits: u32,
    pub is_signed: u32,
    pub order: u32,
    pub depth: u32,
    pub user: u32,
    pub word: u32,
    pub previous: u32,
    pub reduced: u32,
    pub column_sums: u32,
    pub register_bits: u32,
    pub omega: u32,
    pub interval_log: u32,
    pub vmin: i32,
    pub vmax: i32,
    pub weight_table: u32,
    pub weight_bits: u32,
    pub coder: u32,
    pub umax: u32,
    pub gamma_star: u32,
    pub gamma_zero: u32,
    pub k: u32,
    pub accumulator_table: u32,
    pub block: u32,
    pub reference: u32,
    pub restricted: u32,
}

#[repr(C)]
#[derive(Clone, Copy)]
pub struct Layout {
    pub interleave: u32,
    pub bytes: u32,
    pub little: u32,
}

#[repr(C)]
#[derive(Clone, Copy, Default)]
pub struct Fault {
    pub number: u32,
    pub name: u32,
    pub first: i64,
    pub second: i64,
}

#[repr(C)]
pub struct Encoder {
    pub state: *mut c_void,
    pub is_open: u32,
}

extern "C" {
    pub fn ccsds123_version() -> u32;

    #[cfg(test)]
    pub fn ccsds123_fault_text(fault: *const Fault, text: *mut u8, room: usize) -> usize;

    pub fn ccsds123_params_init(params: *mut Params);

    pub fn ccsds123_params_check(
        params: *const Params,
        weights: *const i32,
        weight_count: usize,
        accumulators: *const u8,
        accumulator_count: usize,
        fault: *mut Fault,
    ) -> i32;

    pub fn ccsds123_bound(params: *const Params, bytes: *mut u64, fault: *mut Fault) -> i32;

    pub fn ccsds123_raw_length(params: *const Params, layout: *const Layout, bytes: *mut u64, fault: *mut Fault) -> i32;

    pub fn ccsds123_encoder_rows(encoder: *mut Encoder, raw: *const u8, raw_length: usize, fault: *mut Fault) -> i32;

    pub fn ccsds123_encoder_end(encoder: *mut Encoder, file: *mut u8, file_room: usize, file_length: *mut u64, fault: *mut Fault) -> i32;

    pub fn ccsds123_encoder_free(encoder: *mut Encoder);

    pub fn ccsds123_read_header(
        file: *const u8,
        file_length: usize,
        params: *mut Params,
        weights: *mut i32,
        weight_room: usize,
        weight_count: *mut u64,
        accumulators: *mut u8,
        accumulator_room: usize,
        accumulator_count: *mut u64,
        header_length: *mut u64,
        fault: *mut Fault,
    ) -> i32;

    pub fn ccsds123_decode(
        file: *const u8,
        file_length: usize,
        layout: *const Layout,
        raw: *mut u8,
        raw_room: usize,
        raw_length: *mut u64,
        fault: *mut Fault,
    ) -> i32;
}

/// What a scene is coded by: parameters, the entries of their tables, and the layout of its raw bytes.
pub struct Scene<'a> {
    pub params: Params,
    pub weights: &'a [i32],
    pub accumulators: &'a [u8],
    pub layout: Layout,
}

/// Declares a call that takes a scene, whose parts are six arguments of C; others come before and after these, and the fault is the last.
macro_rules! call_of_scene {
    ($call:ident($($before:ident: $of:ty),*; $($after:ident: $kind:ty),*)) => {
        pub unsafe fn $call($($before: $of,)* scene: &Scene, $($after: $kind,)* fault: *mut Fault) -> i32 {
            extern "C" {
                fn $call(
                    $($before: $of,)*
                    params: *const Params,
                    weights: *const i32,
                    weight_count: usize,
                    accumulators: *const u8,
                    accumulator_count: usize,
                    layout: *const Layout,
                    $($after: $kind,)*
                    fault: *mut Fault,
                ) -> i32;
            }
            let Scene { params, weights, accumulators, layout } = scene;
            $call($($before,)* params, weights.as_ptr(), weights.len(), accumulators.as_ptr(), accumulators.len(), layout, $($after,)* fault)
        }
    };
}

call_of_scene!(ccsds123_encode(; raw: *const u8, raw_length: usize, file: *mut u8, file_room: usize, file_length: *mut u64));
call_of_scene!(ccsds123_encoder_begin(encoder: *mut Encoder;));
