;; PageRank with the damping factor 0.85, in billionths: each vertex begins with 1,000,000,000, the
;; average, whatever its value in the graph file. The value of each edge has to be 2^32 divided by
;; the number of edges from the same vertex.
(module
  (import "pregel" "superstep" (func $superstep (result i64)))
  (import "pregel" "set_value" (func $set_value (param i64)))
  (import "pregel" "next_message" (func $next_message (result i32)))
  (import "pregel" "message_value" (func $message_value (result i64)))
  (import "pregel" "next_edge" (func $next_edge (result i32)))
  (import "pregel" "edge_target" (func $edge_target (result i64)))
  (import "pregel" "edge_value" (func $edge_value (result i64)))
  (import "pregel" "send" (func $send (param i64 i64)))
  (import "pregel" "vote_to_halt" (func $vote_to_halt))
  ;; rank * part / 2^32, rounded down. The upper and the lower half of the rank are multiplied
  ;; apart, so that no product passes 64 bits.
  (func $share (param $rank i64) (param $part i64) (result i64)
    (i64.add
      (i64.mul (i64.shr_u (local.get $rank) (i64.const 32)) (local.get $part))
      (i64.shr_u
        (i64.mul (i64.and (local.get $rank) (i64.const 0xffff_ffff)) (local.get $part))
        (i64.const 32))))
  (func (export "compute") (local $rank i64)
    ;; The sum of the messages. The loop runs once before it takes a message, and adds 0 then.
    (loop $messages
      (local.set $rank (i64.add (local.get $rank) (call $message_value)))
      (br_if $messages (call $next_message)))
    (if (i64.eqz (call $superstep))
      (then
        (local.set $rank (i64.const 1_000_000_000)))
      (else
        (local.set $rank
          (i64.add
            (i64.const 150_000_000)
            (i64.div_u (i64.mul (local.get $rank) (i64.const 85)) (i64.const 100))))))
    (call $set_value (local.get $rank))
    ;; In supersteps 0 to 29 the rank is shared out along the edges. In superstep 30 all is done.
    (if (i64.lt_u (call $superstep) (i64.const 30))
      (then
        (block $no_edge
          (loop $edges
            (br_if $no_edge (i32.eqz (call $next_edge)))
            (call $send (call $edge_target) (call $share (local.get $rank) (call $edge_value)))
            (br $edges))))
      (else
        (call $vote_to_halt)))))
