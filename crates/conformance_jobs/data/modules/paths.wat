;; Shortest paths: each vertex ends with the least sum of edge values on a way to it from the
;; source, or with -1 where no way leads to it. In the graph file the source has the value 0 and
;; each other vertex -1. No edge may have a negative value.
(module
  (import "pregel" "superstep" (func $superstep (result i64)))
  (import "pregel" "get_value" (func $get_value (result i64)))
  (import "pregel" "set_value" (func $set_value (param i64)))
  (import "pregel" "next_message" (func $next_message (result i32)))
  (import "pregel" "message_value" (func $message_value (result i64)))
  (import "pregel" "next_edge" (func $next_edge (result i32)))
  (import "pregel" "edge_target" (func $edge_target (result i64)))
  (import "pregel" "edge_value" (func $edge_value (result i64)))
  (import "pregel" "send" (func $send (param i64 i64)))
  (import "pregel" "vote_to_halt" (func $vote_to_halt))
  (func (export "compute") (local $least i64) (local $changed i32)
    (local.set $least (call $get_value))
    ;; In superstep 0 only the source has something to tell.
    (local.set $changed
      (i32.and (i64.eqz (call $superstep)) (i64.ne (local.get $least) (i64.const -1))))
    ;; Each message is the length of a way to this vertex. Compared without signs, -1 is greater
    ;; than any.
    (block $no_message
      (loop $messages
        (br_if $no_message (i32.eqz (call $next_message)))
        (if (i64.lt_u (call $message_value) (local.get $least))
          (then
            (local.set $least (call $message_value))
            (local.set $changed (i32.const 1))))
        (br $messages)))
    ;; A shorter way is kept, and each edge from here makes a longer one of it.
    (if (local.get $changed)
      (then
        (call $set_value (local.get $least))
        (block $no_edge
          (loop $edges
            (br_if $no_edge (i32.eqz (call $next_edge)))
            (call $send (call $edge_target) (i64.add (local.get $least) (call $edge_value)))
            (br $edges)))))
    (call $vote_to_halt)))
