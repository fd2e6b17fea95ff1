//! Shortest paths: each vertex ends with the length of the shortest path from the source, or with -1 where none leads to it. In the
//! graph file the source has the value 0 and each other vertex -1; an edge's value is its length, 0 or more.
#![no_std]
include!(env!("PREGEL"));

#[no_mangle]
pub extern "C" fn compute() {
    let mut least = get_value();
    let mut news = superstep() == 0 && least == 0;

    for length in messages() {
        if least < 0 || length < least {
            least = length;
            news = true;
        }
    }
    // A shorter path to here makes one to each neighbour, which may be the shortest there.
    if news {
        set_value(least);
        for edge in edges() {
            send(edge.target, least + edge.value);
        }
    }
    vote_to_halt();
}
