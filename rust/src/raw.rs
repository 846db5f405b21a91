//! The declarations of `include/planner.h`. Nothing checks them against it: change them together.

use crate::lent::{Answer, Cycle, Space};

extern "C" {
    pub fn planner_space_needed(
        chart: *const u8,
        chart_len: usize,
        rules: *const u8,
        rules_len: usize,
        space: *mut Space,
    ) -> u32;

    pub fn planner_sweep(
        chart: *const u8,
        chart_len: usize,
        rules: *const u8,
        rules_len: usize,
        cost: *mut u32,
        cost_len: usize,
        via: *mut u32,
        via_len: usize,
        nodes: *mut u32,
        nodes_len: usize,
        plan: *mut u16,
        plan_len: usize,
        answer: *mut Answer,
    ) -> u32;

    pub fn planner_guided(
        chart: *const u8,
        chart_len: usize,
        rules: *const u8,
        rules_len: usize,
        keys: *mut u32,
        keys_len: usize,
        via: *mut u32,
        via_len: usize,
        heap: *mut u32,
        heap_len: usize,
        pos: *mut u32,
        pos_len: usize,
        stack: *mut u32,
        stack_len: usize,
        log: *mut u32,
        log_len: usize,
        plan: *mut u16,
        plan_len: usize,
        answer: *mut Answer,
    ) -> u32;

    pub fn planner_cycles(
        chart: *const u8,
        chart_len: usize,
        rules: *const u8,
        rules_len: usize,
        keys: *mut u32,
        keys_len: usize,
        via: *mut u32,
        via_len: usize,
        heap: *mut u32,
        heap_len: usize,
        pos: *mut u32,
        pos_len: usize,
        stack: *mut u32,
        stack_len: usize,
        log: *mut u32,
        log_len: usize,
        list: *mut Cycle,
        list_len: usize,
        answer: *mut Answer,
    ) -> u32;

    pub fn planner_both(
        chart: *const u8,
        chart_len: usize,
        rules: *const u8,
        rules_len: usize,
        cost: *mut u32,
        cost_len: usize,
        cost_via: *mut u32,
        cost_via_len: usize,
        nodes: *mut u32,
        nodes_len: usize,
        cost_plan: *mut u16,
        cost_plan_len: usize,
        keys: *mut u32,
        keys_len: usize,
        via: *mut u32,
        via_len: usize,
        heap: *mut u32,
        heap_len: usize,
        pos: *mut u32,
        pos_len: usize,
        stack: *mut u32,
        stack_len: usize,
        log: *mut u32,
        log_len: usize,
        plan: *mut u16,
        plan_len: usize,
        sweep: *mut Answer,
        guided: *mut Answer,
    ) -> u32;

    pub fn planner_conjoin(
        chart: *const u8,
        chart_len: usize,
        rules: *const u8,
        rules_len: usize,
        more: *const u8,
        more_len: usize,
        work: *mut u32,
        work_len: usize,
        file: *mut u8,
        file_len: usize,
        answer: *mut Answer,
    ) -> u32;

    pub fn planner_reduce(
        chart: *const u8,
        chart_len: usize,
        rules: *const u8,
        rules_len: usize,
        file: *mut u8,
        file_len: usize,
        answer: *mut Answer,
    ) -> u32;

    pub fn planner_refused_field(
        chart: *const u8,
        chart_len: usize,
        rules: *const u8,
        rules_len: usize,
        file: u32,
        place: usize,
        field: *mut u8,
        field_len: usize,
    ) -> usize;
}
