;; A module with one of each.
(module
  (type (func (param i64) (result i32)))
  (import "pregel" "get_value" (func (type 0)))
  (func (type 0) (local i32 i64) call_indirect (type 2) if (result i32) loop (result i64) call 1 br_table 1 0 end else block i32.const 5 end end unreachable)
  (table 1 2 funcref) (memory 1 2)
  (global (mut i32) i32.const 8)
  (export "compute" (func 1))
  (start 0)
  (elem (i32.const 1) 1 2)
  (data (i32.const 16) "\ff\00"))
