//! The proved calls, as the library exports them. A slice passes as two arguments, its address and its length.

use crate::answers::*;
use crate::models::chain::Offered;
use crate::models::memory::Trace;

extern "C" {
    fn floealder_check_stream(
        control: *const u8,
        controls: usize,
        data: *const u32,
        datas: usize,
        seq: bool,
    ) -> StreamAnswer;
    fn floealder_check_mem(
        control: *const u8,
        controls: usize,
        add: *const u32,
        adds: usize,
        data: *const u32,
        datas: usize,
        r_data: *const u32,
        r_datas: usize,
    ) -> MemAnswer;
    fn floealder_check_mem_decoupled(
        control: *const u8,
        controls: usize,
        add: *const u32,
        adds: usize,
        data: *const u32,
        datas: usize,
        r_data: *const u32,
        r_datas: usize,
    ) -> MemAnswer;
    fn floealder_monitor_fresh(seq: bool) -> Monitor;
    fn floealder_monitor_feed(
        record: *mut Monitor,
        control: *const u8,
        controls: usize,
        data: *const u32,
        datas: usize,
    ) -> u8;
    fn floealder_fifo_new(place: Place) -> New<Fifo>;
    fn floealder_fifo_step(
        fifo: Fifo,
        valid: bool,
        payload: Payload,
        sink: bool,
        clear: bool,
    ) -> Stepped<Fifo>;
    fn floealder_fifo_is_well(fifo: Fifo) -> bool;
    fn floealder_stream_fields(control: u8) -> StreamFields;
    fn floealder_any_reserved(control: *const u8, controls: usize) -> bool;
    fn floealder_memory_fields(control: u8) -> MemFields;
    fn floealder_chain_new(places: *const Place, count: usize) -> New<Chain>;
    fn floealder_chain_step(
        chain: Chain,
        valid: bool,
        payload: Payload,
        sink: bool,
        clear: bool,
    ) -> Stepped<Chain>;
    fn floealder_chain_run(
        chain: Chain,
        control: *const u8,
        controls: usize,
        data: *const u32,
        datas: usize,
        sink: *const u8,
        sinks: usize,
        out_control: *mut u8,
        out_controls: usize,
        out_data: *mut u32,
        out_datas: usize,
    ) -> ChainRun;
    fn floealder_chain_delivery_time(chain: Chain, i: usize) -> DeliveryTime;
    fn floealder_merge(lanes: u8, inputs: Each<Offer>, ready: bool) -> Merged;
    fn floealder_split(lanes: u8, valid: bool, wide: Wide, readies: Each<bool>) -> Split;
    fn floealder_mux_static(
        t0: *const u8,
        cycles0: usize,
        t1: *const u8,
        cycles1: usize,
        select: u8,
        first: usize,
        count: usize,
        out: *mut u8,
        room: usize,
    ) -> Filled;
    fn floealder_addressgen_start() -> State;
    fn floealder_addressgen_run(
        settings: Settings,
        state: State,
        n: usize,
        out: *mut u32,
        room: usize,
    ) -> AddressRun;
    fn floealder_address_at(settings: Settings, i: u32) -> AddressAt;
    fn floealder_overlap(first: Settings, second: Settings, out: *mut u32, room: usize) -> Filled;
    fn floealder_strobe_plan(address: u32, n: u32, out: *mut u8, room: usize) -> Filled;
    fn floealder_realign_source(
        address: u32,
        n: u32,
        words: *const u32,
        words_len: usize,
        strobes: *const u8,
        strobes_len: usize,
        out: *mut u32,
        room: usize,
    ) -> Filled;
    fn floealder_realign_sink(
        address: u32,
        packets: *const u32,
        packets_len: usize,
        out_words: *mut u32,
        room_words: usize,
        out_strobes: *mut u8,
        room_strobes: usize,
    ) -> Filled;
    fn floealder_report(text: *const u8, length: usize, out: *mut u8, room: usize) -> Filled;
}

// Each call below is safe for every argument: the proved promises ask nothing of the caller.

pub fn check_stream(control: &[u8], data: &[u32], seq: bool) -> StreamAnswer {
    unsafe {
        floealder_check_stream(
            control.as_ptr(),
            control.len(),
            data.as_ptr(),
            data.len(),
            seq,
        )
    }
}

pub fn check_mem(t: &Trace) -> MemAnswer {
    unsafe {
        floealder_check_mem(
            t.control.as_ptr(),
            t.control.len(),
            t.add.as_ptr(),
            t.add.len(),
            t.data.as_ptr(),
            t.data.len(),
            t.r_data.as_ptr(),
            t.r_data.len(),
        )
    }
}

pub fn check_mem_decoupled(t: &Trace) -> MemAnswer {
    unsafe {
        floealder_check_mem_decoupled(
            t.control.as_ptr(),
            t.control.len(),
            t.add.as_ptr(),
            t.add.len(),
            t.data.as_ptr(),
            t.data.len(),
            t.r_data.as_ptr(),
            t.r_data.len(),
        )
    }
}

pub fn monitor_fresh(seq: bool) -> Monitor {
    unsafe { floealder_monitor_fresh(seq) }
}

/// The number of the burst's refusal, 0 where it is accepted.
pub fn monitor_feed(record: &mut Monitor, control: &[u8], data: &[u32]) -> u8 {
    unsafe {
        floealder_monitor_feed(
            record,
            control.as_ptr(),
            control.len(),
            data.as_ptr(),
            data.len(),
        )
    }
}

pub fn fifo_new(place: Place) -> New<Fifo> {
    unsafe { floealder_fifo_new(place) }
}

pub fn fifo_step(f: Fifo, valid: bool, p: Payload, sink: bool, clear: bool) -> Stepped<Fifo> {
    unsafe { floealder_fifo_step(f, valid, p, sink, clear) }
}

pub fn fifo_is_well(f: Fifo) -> bool {
    unsafe { floealder_fifo_is_well(f) }
}

pub fn stream_fields(control: u8) -> StreamFields {
    unsafe { floealder_stream_fields(control) }
}

pub fn any_reserved(control: &[u8]) -> bool {
    unsafe { floealder_any_reserved(control.as_ptr(), control.len()) }
}

pub fn memory_fields(control: u8) -> MemFields {
    unsafe { floealder_memory_fields(control) }
}

pub fn chain_new(places: &[Place]) -> New<Chain> {
    unsafe { floealder_chain_new(places.as_ptr(), places.len()) }
}

pub fn chain_step(c: Chain, valid: bool, p: Payload, sink: bool, clear: bool) -> Stepped<Chain> {
    unsafe { floealder_chain_step(c, valid, p, sink, clear) }
}

pub fn chain_run(
    chain: Chain,
    offered: &Offered,
    out_control: &mut [u8],
    out_data: &mut [u32],
) -> ChainRun {
    unsafe {
        floealder_chain_run(
            chain,
            offered.control.as_ptr(),
            offered.control.len(),
            offered.data.as_ptr(),
            offered.data.len(),
            offered.sink.as_ptr(),
            offered.sink.len(),
            out_control.as_mut_ptr(),
            out_control.len(),
            out_data.as_mut_ptr(),
            out_data.len(),
        )
    }
}

pub fn chain_delivery_time(chain: Chain, i: usize) -> DeliveryTime {
    unsafe { floealder_chain_delivery_time(chain, i) }
}

pub fn merge(lanes: u8, inputs: [Offer; MAX_LANES], ready: bool) -> Merged {
    unsafe { floealder_merge(lanes, Each(inputs), ready) }
}

pub fn split(lanes: u8, valid: bool, wide: Wide, readies: [bool; MAX_LANES]) -> Split {
    unsafe { floealder_split(lanes, valid, wide, Each(readies)) }
}

/// The part's length; its bytes are copied to the output's start.
pub fn mux_static(
    traces: [&[u8]; 2],
    select: u8,
    first: usize,
    count: usize,
    out: &mut [u8],
) -> Filled {
    unsafe {
        floealder_mux_static(
            traces[0].as_ptr(),
            traces[0].len(),
            traces[1].as_ptr(),
            traces[1].len(),
            select,
            first,
            count,
            out.as_mut_ptr(),
            out.len(),
        )
    }
}

pub fn addressgen_start() -> State {
    unsafe { floealder_addressgen_start() }
}

pub fn addressgen_run(settings: &Settings, state: &State, n: usize, out: &mut [u32]) -> AddressRun {
    unsafe { floealder_addressgen_run(*settings, *state, n, out.as_mut_ptr(), out.len()) }
}

pub fn address_at(settings: &Settings, i: u32) -> AddressAt {
    unsafe { floealder_address_at(*settings, i) }
}

pub fn overlap(first: &Settings, second: &Settings, out: &mut [u32]) -> Filled {
    unsafe { floealder_overlap(*first, *second, out.as_mut_ptr(), out.len()) }
}

pub fn strobe_plan(address: u32, n: u32, out: &mut [u8]) -> Filled {
    unsafe { floealder_strobe_plan(address, n, out.as_mut_ptr(), out.len()) }
}

pub fn realign_source(
    address: u32,
    n: u32,
    words: &[u32],
    strobes: &[u8],
    out: &mut [u32],
) -> Filled {
    unsafe {
        floealder_realign_source(
            address,
            n,
            words.as_ptr(),
            words.len(),
            strobes.as_ptr(),
            strobes.len(),
            out.as_mut_ptr(),
            out.len(),
        )
    }
}

pub fn realign_sink(
    address: u32,
    packets: &[u32],
    out_words: &mut [u32],
    out_strobes: &mut [u8],
) -> Filled {
    unsafe {
        floealder_realign_sink(
            address,
            packets.as_ptr(),
            packets.len(),
            out_words.as_mut_ptr(),
            out_words.len(),
            out_strobes.as_mut_ptr(),
            out_strobes.len(),
        )
    }
}

pub fn report(text: &[u8], out: &mut [u8]) -> Filled {
    unsafe { floealder_report(text.as_ptr(), text.len(), out.as_mut_ptr(), out.len()) }
}
