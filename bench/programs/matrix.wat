;; Multiplies two matrices of 100 x 100 ints, at 0 and 40,000, into one at 80,000; gives the sum of the product's elements, each
;; with its place's weight.
(module
  (memory 2)

  ;; how many bytes behind a matrix's beginning an element lies
  (func $place (param $row i32) (param $column i32) (result i32)
    (i32.mul (i32.add (i32.mul (local.get $row) (i32.const 100)) (local.get $column)) (i32.const 4)))

  (func $fill
    (local $row i32)
    (local $column i32)
    (local.set $row (i32.const 0))
    (loop $rows
      (local.set $column (i32.const 0))
      (loop $columns
        (i32.store
          (call $place (local.get $row) (local.get $column))
          (i32.sub
            (i32.rem_s
              (i32.add (i32.mul (local.get $row) (i32.const 3)) (i32.mul (local.get $column) (i32.const 7)))
              (i32.const 101))
            (i32.const 50)))
        (i32.store offset=40000
          (call $place (local.get $row) (local.get $column))
          (i32.sub
            (i32.rem_s
              (i32.add (i32.mul (local.get $row) (i32.const 5)) (i32.mul (local.get $column) (i32.const 2)))
              (i32.const 97))
            (i32.const 48)))
        (local.set $column (i32.add (local.get $column) (i32.const 1)))
        (br_if $columns (i32.lt_s (local.get $column) (i32.const 100))))
      (local.set $row (i32.add (local.get $row) (i32.const 1)))
      (br_if $rows (i32.lt_s (local.get $row) (i32.const 100)))))

  (func $multiply
    (local $row i32)
    (local $column i32)
    (local $i i32)
    (local $sum i32)
    (local.set $row (i32.const 0))
    (loop $rows
      (local.set $column (i32.const 0))
      (loop $columns
        (local.set $sum (i32.const 0))
        (local.set $i (i32.const 0))
        (loop $products
          (local.set $sum
            (i32.add
              (local.get $sum)
              (i32.mul
                (i32.load (call $place (local.get $row) (local.get $i)))
                (i32.load offset=40000 (call $place (local.get $i) (local.get $column))))))
          (local.set $i (i32.add (local.get $i) (i32.const 1)))
          (br_if $products (i32.lt_s (local.get $i) (i32.const 100))))
        (i32.store offset=80000 (call $place (local.get $row) (local.get $column)) (local.get $sum))
        (local.set $column (i32.add (local.get $column) (i32.const 1)))
        (br_if $columns (i32.lt_s (local.get $column) (i32.const 100))))
      (local.set $row (i32.add (local.get $row) (i32.const 1)))
      (br_if $rows (i32.lt_s (local.get $row) (i32.const 100)))))

  (func (export "main") (result i64)
    (local $place i32)
    (local $sum i64)
    (call $fill)
    (call $multiply)
    (loop $places
      (local.set $sum
        (i64.add
          (local.get $sum)
          (i64.mul
            (i64.load32_s offset=80000 (i32.mul (local.get $place) (i32.const 4)))
            (i64.extend_i32_s (i32.add (local.get $place) (i32.const 1))))))
      (local.set $place (i32.add (local.get $place) (i32.const 1)))
      (br_if $places (i32.lt_s (local.get $place) (i32.const 10000))))
    (local.get $sum)))
