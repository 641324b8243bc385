;; data/functions.wasm is what `wat2wasm functions.wat` of wabt makes of this.
(module
  (type $nothing (func))
  (type $number (func (result i32)))
  (type $mixed (func (param i32 i64 f32 f64) (result v128 funcref)))
  (func (type $nothing))
  (func (type $nothing) (local i32 i32 i64) unreachable)
  (func (type $number) unreachable)
  (func (type $mixed) (local externref) unreachable unreachable))
