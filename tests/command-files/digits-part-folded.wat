(module
  (import "pregel" "next_message" (func $next_message (result i32)))
  (import "pregel" "get_value" (func $get_value (result i64)))
  (import "pregel" "message_value" (func $message_value (result i64)))
  (import "pregel" "set_value" (func $set_value (param i64)))
  (import "pregel" "next_edge" (func $next_edge (result i32)))
  (import "pregel" "edge_target" (func $edge_target (result i64)))
  (import "pregel" "edge_value" (func $edge_value (result i64)))
  (import "pregel" "send" (func $send (param i64 i64)))
  (import "pregel" "vote_to_halt" (func $vote_to_halt))
  (func (export "compute")
    block
      loop
        call $next_message
        i32.eqz
        br_if 1
        (call $set_value
          (i64.add (i64.mul (call $get_value) (i64.const 10)) (call $message_value)))
        br 0
      end
    end
    block
      loop
        call $next_edge
        i32.eqz
        br_if 1
        (call $send (call $edge_target) (call $edge_value))
        br 0
      end
    end
    call $vote_to_halt))
