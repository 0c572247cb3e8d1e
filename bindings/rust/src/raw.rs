//! The library's functions and records as they are exported; include/tezvorup.h has a comment for each.
#![allow(non_camel_case_types, missing_docs)]

#[repr(C)]
#[derive(Clone, Copy, Debug, Default, PartialEq)]
pub struct spline_state {
    pub kind: u8,
    pub rows: usize,
    pub columns: usize,
}

#[repr(C)]
#[derive(Clone, Copy, Debug, Default, PartialEq)]
pub struct spline_config {
    pub order: usize,
    pub s_min: f64,
    pub s_max: f64,
    pub mode: u8,
    pub start: spline_state,
    pub end: spline_state,
}

#[repr(C)]
#[derive(Clone, Copy, Debug, Default, PartialEq)]
pub struct spline_path {
    pub order: usize,
    pub segments: usize,
    pub axes: usize,
    pub s_min: f64,
    pub s_max: f64,
    pub inv_ds: f64,
    pub mode: u8,
}

#[repr(C)]
#[derive(Clone, Copy, Debug, Default, PartialEq)]
pub struct spline_answer {
    pub number: u32,
    pub path: spline_path,
}

#[repr(C)]
#[derive(Clone, Copy, Debug, Default, PartialEq)]
pub struct spline_check {
    pub number: u32,
    pub good: u8,
}

#[repr(C)]
#[derive(Clone, Copy, Debug, Default, PartialEq)]
pub struct spline_place {
    pub number: u32,
    pub at: usize,
}

#[repr(C)]
#[derive(Clone, Copy, Debug, Default, PartialEq)]
pub struct spline_sheet {
    pub number: u32,
    pub at: usize,
    pub path: spline_path,
}

#[repr(C)]
#[derive(Clone, Copy, Debug, Default, PartialEq)]
pub struct spline_number {
    pub start: usize,
    pub next: usize,
    pub size: u64,
    pub stage: u8,
    pub minus: u8,
}

#[repr(C)]
#[derive(Clone, Copy, Debug, Default, PartialEq)]
pub struct spline_whole {
    pub number: u32,
    pub at: usize,
    pub value: i64,
}

#[link(name = "tezvorup", kind = "static")]
extern "C" {
    pub fn spline_mul_add(a: f64, b: f64, c: f64) -> f64;
    pub fn spline_build(
        config: spline_config,
        points: usize,
        axes: usize,
        waypoints: *const f64,
        waypoint_count: usize,
        start: *const f64,
        start_count: usize,
        end: *const f64,
        end_count: usize,
        coefficients: *mut f64,
        coefficient_count: usize,
    ) -> spline_answer;
    pub fn spline_preview(
        config: spline_config,
        points: usize,
        axes: usize,
        waypoints: *const f64,
        waypoint_count: usize,
        start: *const f64,
        start_count: usize,
        end: *const f64,
        end_count: usize,
        coefficient_count: usize,
    ) -> spline_answer;
    pub fn spline_query(
        path: spline_path,
        coefficients: *const f64,
        coefficient_count: usize,
        s: f64,
        level: u8,
        q: *mut f64,
        q_count: usize,
        dq: *mut f64,
        dq_count: usize,
        ddq: *mut f64,
        ddq_count: usize,
        dddq: *mut f64,
        dddq_count: usize,
    ) -> u32;
    pub fn spline_check_master(
        order: usize,
        waypoints: *const i64,
        waypoint_count: usize,
        start: *const i64,
        start_count: usize,
        end: *const i64,
        end_count: usize,
        table: *const i64,
        table_count: usize,
    ) -> spline_check;
    pub fn spline_read_sheet(text: *const u8, text_count: usize) -> spline_place;
    pub fn spline_build_sheet(text: *const u8, text_count: usize, coefficients: *mut f64, coefficient_count: usize) -> spline_sheet;
    pub fn spline_begin_number(at: usize) -> spline_number;
    pub fn spline_continue_number(number: spline_number, bytes: *const u8, byte_count: usize) -> spline_number;
    pub fn spline_finish_number(number: spline_number) -> spline_whole;
}
