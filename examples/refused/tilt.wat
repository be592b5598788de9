;; A cart that is refused for its floats: `half` has four float instructions. Without them it would be refused for its
;; third import, since the console has no function `seed`.
(module
  (import "env" "memory" (memory 1))
  (import "env" "trace" (func (param i32)))
  (import "env" "seed" (func $seed (result i32)))
  (func $half (param $n i32) (result i32)
    (i32.trunc_f32_s (f32.mul (f32.convert_i32_s (local.get $n)) (f32.const 0.5))))
  (func (export "update")
    (drop (call $half (call $seed)))))
