;; A vertex adds its messages to its value, and sends the sum with each edge's value along the edge.
(module
  (type $compute (func))
  (import "pregel" "next_message" (func $next_message (result i32)))
  (import "pregel" "message_value" (func $message_value (result i64)))
  (import "pregel" "get_value" (func $get_value (result i64)))
  (import "pregel" "set_value" (func $set_value (param i64)))
  (import "pregel" "next_edge" (func $next_edge (result i32)))
  (import "pregel" "edge_target" (func $edge_target (result i64)))
  (import "pregel" "edge_value" (func $edge_value (result i64)))
  (import "pregel" "send" (func $send (param i64 i64)))
  (import "pregel" "vote_to_halt" (func $vote_to_halt))
  (func (export "compute") (type $compute)
    (block $no_message
      (loop $messages
        (br_if $no_message (i32.eqz (call $next_message)))
        (call $set_value (i64.add (call $get_value) (call $message_value)))
        (br $messages)))
    (block $no_edge
      (loop $edges
        (br_if $no_edge (i32.eqz (call $next_edge)))
        (call $send (call $edge_target) (i64.add (call $get_value) (call $edge_value)))
        (br $edges)))
    (call $vote_to_halt)))
