(module
  (type (func))
  (type (func (param i32 i64) (result i32)))
  (table 1 funcref)
  (memory 1)
  (global i32 (i32.const 1))
  (global (mut i64) (i64.const 1))
  (func (type 0) (local i32 i64) …))
