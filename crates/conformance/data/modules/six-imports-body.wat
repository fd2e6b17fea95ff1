(module
  (import "pregel" "next_message" (func $next_message (result i32)))
  (import "pregel" "next_edge" (func $next_edge (result i32)))
  (import "pregel" "get_value" (func $get_value (result i64)))
  (import "pregel" "set_value" (func $set_value (param i64)))
  (import "pregel" "aggregate" (func $aggregate (param i32 i64)))
  (import "pregel" "send" (func $send (param i64 i64)))
  (memory 1)
  (func (export "compute") …))
