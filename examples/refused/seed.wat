;; A cart that is refused for its third import: the console has no function `seed`.
(module
  (import "env" "memory" (memory 1))
  (import "env" "trace" (func (param i32)))
  (import "env" "seed" (func $seed (result i32)))
  (func (export "update")
    (drop (call $seed))))
