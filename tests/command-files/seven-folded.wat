(module
  (import "pregel" "get_value" (func $get_value (result i64)))
  (import "pregel" "set_value" (func $set_value (param i64)))
  (func (export "compute")
    (call $set_value (i64.add (i64.mul (call $get_value) (i64.const 10)) (i64.const 7)))))
