//! PageRank with the damping factor 0.85, in billionths, the average being 1,000,000,000. The values in the graph file do not matter.
//! Superstep 0 counts the edges, since a call can go through them once; their number is the value until the last superstep.
#![no_std]
include!(env!("PREGEL"));

const AVERAGE: i64 = 1_000_000_000;
const ROUNDS: i64 = 30;

#[no_mangle]
pub extern "C" fn compute() {
    if superstep() == 0 {
        set_value(edges().count() as i64);
        return;
    }
    let mut rank = AVERAGE;
    if superstep() > 1 {
        let sum: i64 = messages().sum();
        rank = AVERAGE * 15 / 100 + sum * 85 / 100;
    }
    if superstep() <= ROUNDS {
        let share = divide(rank as u64, get_value() as u64) as i64;
        for edge in edges() {
            send(edge.target, share);
        }
    } else {
        set_value(rank);
        vote_to_halt();
    }
}
