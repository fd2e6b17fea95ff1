;; Degrees: each vertex ends with a sum of 100,000,000 for each edge that leads to it and 1 for each
;; edge that leads from it. The values in the graph file do not matter.
(module
  (import "pregel" "superstep" (func $superstep (result i64)))
  (import "pregel" "get_value" (func $get_value (result i64)))
  (import "pregel" "set_value" (func $set_value (param i64)))
  (import "pregel" "next_message" (func $next_message (result i32)))
  (import "pregel" "message_value" (func $message_value (result i64)))
  (import "pregel" "next_edge" (func $next_edge (result i32)))
  (import "pregel" "edge_target" (func $edge_target (result i64)))
  (import "pregel" "send" (func $send (param i64 i64)))
  (import "pregel" "vote_to_halt" (func $vote_to_halt))
  (func (export "compute")
    ;; In superstep 0 a vertex counts the edges from it, and tells the other end of each.
    (if (i64.eqz (call $superstep))
      (then
        (call $set_value (i64.const 0))
        (block $no_edge
          (loop $edges
            (br_if $no_edge (i32.eqz (call $next_edge)))
            (call $set_value (i64.add (call $get_value) (i64.const 1)))
            (call $send (call $edge_target) (i64.const 100_000_000))
            (br $edges)))))
    ;; In superstep 1 it adds what came: one message for each edge to it.
    (block $no_message
      (loop $messages
        (br_if $no_message (i32.eqz (call $next_message)))
        (call $set_value (i64.add (call $get_value) (call $message_value)))
        (br $messages)))
    (call $vote_to_halt)))
