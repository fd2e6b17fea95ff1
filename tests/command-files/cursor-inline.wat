(module
  (import "pregel" "next_message" (func $next_message (result i32)))
  (func (export "compute")
    block loop call $next_message i32.eqz br_if 1 br 0 end end))
