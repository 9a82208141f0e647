//! The call of the static library, as host/tap.h declares it.

extern "C" {
    fn tap_read(
        graph: *const u8,
        graph_length: usize,
        plan: *const u8,
        plan_length: usize,
        packet: *const u8,
        packet_length: usize,
        area: *mut u8,
        area_length: usize,
    ) -> u64;
}

/// Makes the call.
pub fn read(graph: &[u8], plan: &[u8], packet: &[u8], area: &mut [u8]) -> u64 {
    // SAFETY: each pointer is that of a slice with its own length, and only the area's is written through.
    unsafe {
        tap_read(
            graph.as_ptr(),
            graph.len(),
            plan.as_ptr(),
            plan.len(),
            packet.as_ptr(),
            packet.len(),
            area.as_mut_ptr(),
            area.len(),
        )
    }
}
