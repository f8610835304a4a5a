;; Fibonacci numbers, and the same through a table whose entry the start function changes.
;; wat2wasm fib.wat -o fib.wasm
(module
  (type $unary (func (param i32) (result i32)))
  (table 1 funcref)
  (elem (i32.const 0) func $identity)
  (elem declare func $fib)
  (func $identity (type $unary) (local.get 0))
  (func $fib (export "fib") (type $unary)
    (if (result i32) (i32.lt_s (local.get 0) (i32.const 2))
      (then (local.get 0))
      (else
        (i32.add
          (call $fib (i32.sub (local.get 0) (i32.const 1)))
          (call $fib (i32.sub (local.get 0) (i32.const 2)))))))
  (func (export "through") (type $unary)
    (call_indirect (type $unary) (local.get 0) (i32.const 0)))
  (func $begin (table.set 0 (i32.const 0) (ref.func $fib)))
  (start $begin))
