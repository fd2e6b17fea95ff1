//! Connected components: each vertex ends with the least id of its component. The graph has each edge in both directions; the values
//! of its vertices and edges do not matter.
#![no_std]
include!(env!("PREGEL"));

#[no_mangle]
pub extern "C" fn compute() {
    let mut news = superstep() == 0;
    let mut least = if news { vertex_id() } else { get_value() };

    for id in messages() {
        if id < least {
            least = id;
            news = true;
        }
    }
    if news {
        set_value(least);
        for edge in edges() {
            send(edge.target, least);
        }
    }
    vote_to_halt();
}
