(module
  (import "pregel" "aggregate" (func $aggregate (param i32 i64)))
  (import "pregel" "aggregated" (func $aggregated (param i32) (result i64)))
  (func (export "compute") (local i32) …))
