(module
  (import "pregel" "superstep" (func $superstep (result i64)))
  (import "pregel" "get_value" (func $get_value (result i64)))
  (import "pregel" "set_value" (func $set_value (param i64)))
  (import "pregel" "next_message" (func $next_message (result i32)))
  (import "pregel" "message_value" (func $message_value (result i64)))
  (import "pregel" "next_edge" (func $next_edge (result i32)))
  (import "pregel" "edge_target" (func $edge_target (result i64)))
  (import "pregel" "send" (func $send (param i64 i64)))
  (import "pregel" "vote_to_halt" (func $vote_to_halt))
  (func (export "compute") (local $best i64) (local $changed i32)
    (local.set $best (call $get_value))
    (local.set $changed (i64.eqz (call $superstep)))
    (block $no_message
      (loop $messages
        (br_if $no_message (i32.eqz (call $next_message)))
        (if (i64.gt_s (call $message_value) (local.get $best))
          (then
            (local.set $best (call $message_value))
            (local.set $changed (i32.const 1))))
        (br $messages)))
    (if (local.get $changed)
      (then
        (call $set_value (local.get $best))
        (block $no_edge
          (loop $edges
            (br_if $no_edge (i32.eqz (call $next_edge)))
            (call $send (call $edge_target) (local.get $best))
            (br $edges)))))
    (call $vote_to_halt)))
