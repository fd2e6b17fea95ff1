// The Rust interface of vertex programs: the fourteen functions that a program may call, and what the verifier requires.
//
//     #![no_std]
//     include!(env!("PREGEL"));
//
//     #[no_mangle]
//     pub extern "C" fn compute() {
//         for message in messages() {
//             set_value(get_value() + message);
//         }
//         vote_to_halt();
//     }
//
// `pregel-cc FILE.rs` compiles, links and verifies such a file; it sets PREGEL to the path of this one. docs/LANGUAGES.md is the guide.

#[allow(dead_code)]
mod pregel {
    mod host {
        #[link(wasm_import_module = "pregel")]
        extern "C" {
            pub fn vertex_id() -> i64;
            pub fn superstep() -> i64;
            pub fn num_vertices() -> i64;
            pub fn get_value() -> i64;
            pub fn set_value(value: i64);
            pub fn next_message() -> i32;
            pub fn message_value() -> i64;
            pub fn next_edge() -> i32;
            pub fn edge_target() -> i64;
            pub fn edge_value() -> i64;
            pub fn send(target: i64, value: i64);
            pub fn aggregate(aggregator: i32, value: i64);
            pub fn aggregated(aggregator: i32) -> i64;
            pub fn vote_to_halt();
        }
    }

    // ---- The vertex and the job ----

    /// Returns the id of this vertex, from 0 to 9,223,372,036,854,775,807.
    #[inline(always)]
    pub fn vertex_id() -> i64 {
        unsafe { host::vertex_id() }
    }

    /// Returns the number of this superstep, from 0.
    #[inline(always)]
    pub fn superstep() -> i64 {
        unsafe { host::superstep() }
    }

    /// Returns how many vertices the graph has, from 1 to 1,000,000.
    #[inline(always)]
    pub fn num_vertices() -> i64 {
        unsafe { host::num_vertices() }
    }

    /// Returns the value of this vertex: what the graph file gives it, until `set_value` changes it.
    #[inline(always)]
    pub fn get_value() -> i64 {
        unsafe { host::get_value() }
    }

    /// Gives this vertex another value. It is what the vertex keeps until the next superstep, and what the job prints at its end.
    #[inline(always)]
    pub fn set_value(value: i64) {
        unsafe { host::set_value(value) }
    }

    /// Makes this vertex inactive after this call. A message makes it active again. The job ends when every vertex is inactive and no
    /// message is under way.
    #[inline(always)]
    pub fn vote_to_halt() {
        unsafe { host::vote_to_halt() }
    }

    // ---- Messages and edges ----

    /// Returns the messages of this vertex that were not taken yet: by the sender's id, rising, and those of one sender in the order
    /// in which it sent them. Each can be taken once in a call.
    #[inline(always)]
    pub fn messages() -> Messages {
        Messages(())
    }

    /// Returns the edges that lead from this vertex and were not taken yet, in the order of the graph file. Each can be taken once in
    /// a call: either count them, or send along them.
    #[inline(always)]
    pub fn edges() -> Edges {
        Edges(())
    }

    /// Sends `value` to the vertex `target`, of any part of the graph. It arrives in the next superstep. A message to an id that the
    /// graph does not have is dropped and counted.
    #[inline(always)]
    pub fn send(target: i64, value: i64) {
        unsafe { host::send(target, value) }
    }

    /// An edge that leads from this vertex: where to, and its value.
    #[derive(Clone, Copy)]
    pub struct Edge {
        pub target: i64,
        pub value: i64,
    }

    /// Messages, one after another.
    pub struct Messages(());

    /// Edges, one after another.
    pub struct Edges(());

    impl Iterator for Messages {
        type Item = i64;

        #[inline(always)]
        fn next(&mut self) -> Option<i64> {
            unsafe {
                if host::next_message() != 0 {
                    Some(host::message_value())
                } else {
                    None
                }
            }
        }
    }

    impl Iterator for Edges {
        type Item = Edge;

        #[inline(always)]
        fn next(&mut self) -> Option<Edge> {
            unsafe {
                if host::next_edge() != 0 {
                    Some(Edge { target: host::edge_target(), value: host::edge_value() })
                } else {
                    None
                }
            }
        }
    }

    // Keeps code on its side, and becomes no instruction. Each loop over items ends with one, so that the code that follows is not laid
    // out within the loop, where the verifier would refuse it (rule P9).
    #[inline(always)]
    fn fence() {
        core::sync::atomic::compiler_fence(core::sync::atomic::Ordering::SeqCst);
    }

    impl Drop for Messages {
        #[inline(always)]
        fn drop(&mut self) {
            fence();
        }
    }

    impl Drop for Edges {
        #[inline(always)]
        fn drop(&mut self) {
            fence();
        }
    }

    // ---- Aggregators ----

    /// Contributes `value` to aggregator A: 0 and 1 take the sum (wrapping, from 0), 2 and 3 the least (from `i64::MAX`), 4 and 5 the
    /// greatest (from `i64::MIN`), 6 and 7 the or of all bits (from 0). Every vertex reads the result in the next superstep. The number
    /// is written as a constant, `aggregate::<0>(1)`, since the verifier requires it (rule P13).
    #[inline(always)]
    pub fn aggregate<const A: i32>(value: i64) {
        unsafe { host::aggregate(A, value) }
        mark::<A>();
    }

    /// Returns what aggregator A was folded to in the superstep before, and its start in superstep 0.
    #[inline(always)]
    pub fn aggregated<const A: i32>() -> i64 {
        let folded = unsafe { host::aggregated(A) };
        mark::<A>();
        folded
    }

    // Two fences that differ for each aggregator, so that two calls are not merged into one with a number that is chosen before.
    #[inline(always)]
    fn mark<const A: i32>() {
        use core::sync::atomic::{compiler_fence, Ordering};
        match A & 3 {
            0 => compiler_fence(Ordering::Acquire),
            1 => compiler_fence(Ordering::Release),
            2 => compiler_fence(Ordering::AcqRel),
            _ => compiler_fence(Ordering::SeqCst),
        }
        if A & 4 == 0 {
            compiler_fence(Ordering::Acquire);
        } else {
            compiler_fence(Ordering::Release);
        }
    }

    // ---- Division ----

    /// Returns n / d, rounded down, for a d that is not a constant (rule P11), and 0 where d is 0. A division by a constant is written
    /// as usual. sdk/c/pregel.h says how it works; it costs some 160 units.
    #[inline(always)]
    pub fn divide(n: u64, d: u64) -> u64 {
        let zeros = if d == 0 { 0 } else { d.leading_zeros() };
        let x = (d.wrapping_shl(zeros) >> 33) + 1;
        let y = 9110536688u64.wrapping_sub(1561806289u64.wrapping_sub(694136128u64.wrapping_mul(x) >> 31).wrapping_mul(x) >> 28);
        let y = y.wrapping_mul((1u64 << 63).wrapping_sub(x.wrapping_mul(y)) >> 31) >> 31;
        let y = y.wrapping_mul((1u64 << 63).wrapping_sub(x.wrapping_mul(y)) >> 31) >> 31;
        let (q, r) = nearer(0, n, d, y, zeros);
        let (q, r) = nearer(q, r, d, y, zeros);
        let (q, r) = nearer(q, r, d, y, zeros);
        if d == 0 {
            0
        } else {
            q + (r >= d) as u64
        }
    }

    /// Returns the rest of n / d, and n where d is 0.
    #[inline(always)]
    pub fn modulo(n: u64, d: u64) -> u64 {
        n.wrapping_sub(divide(n, d).wrapping_mul(d))
    }

    // Takes from the rest r what the reciprocal y finds of d in it, and adds that to q.
    #[inline(always)]
    fn nearer(q: u64, r: u64, d: u64, y: u64, zeros: u32) -> (u64, u64) {
        let part = ((r >> 32).wrapping_mul(y).wrapping_add((r & 0xffff_ffff).wrapping_mul(y) >> 32)).wrapping_shr(63 - zeros);
        (q.wrapping_add(part), r.wrapping_sub(part.wrapping_mul(d)))
    }
}

#[allow(unused_imports)]
use pregel::*;

// What panics is left out where the compiler sees that it cannot happen. A panic that is left makes the module one that the verifier
// refuses (rule P6).
#[panic_handler]
fn panic(_: &core::panic::PanicInfo) -> ! {
    core::arch::wasm32::unreachable()
}
