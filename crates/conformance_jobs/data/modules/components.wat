;; Connected components: each vertex ends with the least id of its component. Each edge has to stand
;; in the graph in both directions. The values in the graph file do not matter.
(module
  (import "pregel" "vertex_id" (func $vertex_id (result i64)))
  (import "pregel" "superstep" (func $superstep (result i64)))
  (import "pregel" "get_value" (func $get_value (result i64)))
  (import "pregel" "set_value" (func $set_value (param i64)))
  (import "pregel" "next_message" (func $next_message (result i32)))
  (import "pregel" "message_value" (func $message_value (result i64)))
  (import "pregel" "next_edge" (func $next_edge (result i32)))
  (import "pregel" "edge_target" (func $edge_target (result i64)))
  (import "pregel" "send" (func $send (param i64 i64)))
  (import "pregel" "vote_to_halt" (func $vote_to_halt))
  (func (export "compute") (local $least i64) (local $changed i32)
    ;; The least id that this vertex knows of: in superstep 0 its own, which is new to the others,
    ;; and later its value.
    (if (i64.eqz (call $superstep))
      (then
        (local.set $least (call $vertex_id))
        (local.set $changed (i32.const 1)))
      (else
        (local.set $least (call $get_value))))
    ;; Each message is an id of the same component.
    (block $no_message
      (loop $messages
        (br_if $no_message (i32.eqz (call $next_message)))
        (if (i64.lt_s (call $message_value) (local.get $least))
          (then
            (local.set $least (call $message_value))
            (local.set $changed (i32.const 1))))
        (br $messages)))
    ;; What is new is kept, and told to the neighbours.
    (if (local.get $changed)
      (then
        (call $set_value (local.get $least))
        (block $no_edge
          (loop $edges
            (br_if $no_edge (i32.eqz (call $next_edge)))
            (call $send (call $edge_target) (local.get $least))
            (br $edges)))))
    ;; The vertex is called again when a message comes, and the job ends when none is under way.
    (call $vote_to_halt)))
