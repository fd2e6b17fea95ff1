(module
  (import "pregel" "set_value" (func $set_value (param i64)))
  (memory 1)
  (func (export "compute")
    (i64.store (i32.const 0) (i64.add (i64.load (i32.const 0)) (i64.const 1)))
    (call $set_value (i64.load (i32.const 0)))))
