(module
  (import "pregel" "next_message" (func $next_message (result i32)))
  (func (export "compute")
    block loop call $next_message drop i32.const 1 br_if 0 end end))
