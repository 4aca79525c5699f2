;; Inserts 100,000 pseudo-random keys into a binary search tree, sums each key times its depth, and frees the tree; gives the
;; number of nodes and the sum. A node is its key and its two parts, in a cell of 12 bytes, which is the last one freed, or else
;; the next one of the memory.
(module
  (memory 20)
  (global $freed (mut i32) (i32.const 0))
  (global $top (mut i32) (i32.const 16))
  ;; the root lies at 8
  (global $nodes (mut i32) (i32.const 0))

  (func $allocate (result i32)
    (local $cell i32)
    (if (result i32) (global.get $freed)
      (then
        (local.set $cell (global.get $freed))
        (global.set $freed (i32.load (local.get $cell)))
        (local.get $cell))
      (else
        (local.set $cell (global.get $top))
        (global.set $top (i32.add (local.get $cell) (i32.const 12)))
        (local.get $cell))))

  (func $free (param $cell i32)
    (i32.store (local.get $cell) (global.get $freed))
    (global.set $freed (local.get $cell)))

  (func $insert (param $key i32)
    (local $place i32)
    (local $node i32)
    (local.set $place (i32.const 8))
    (block $found
      (loop $deeper
        (local.set $node (i32.load (local.get $place)))
        (br_if $found (i32.eqz (local.get $node)))
        (if (i32.eq (i32.load (local.get $node)) (local.get $key))
          (then (return)))
        (if (i32.lt_u (local.get $key) (i32.load (local.get $node)))
          (then (local.set $place (i32.add (local.get $node) (i32.const 4))))
          (else (local.set $place (i32.add (local.get $node) (i32.const 8)))))
        (br $deeper)))
    (local.set $node (call $allocate))
    (i32.store (local.get $place) (local.get $node))
    (i32.store (local.get $node) (local.get $key))
    (i32.store offset=4 (local.get $node) (i32.const 0))
    (i32.store offset=8 (local.get $node) (i32.const 0))
    (global.set $nodes (i32.add (global.get $nodes) (i32.const 1))))

  (func $weight (param $node i32) (param $depth i64) (result i64)
    (if (i32.eqz (local.get $node))
      (then (return (i64.const 0))))
    (i64.add
      (i64.mul (i64.load32_u (local.get $node)) (local.get $depth))
      (i64.add
        (call $weight (i32.load offset=4 (local.get $node)) (i64.add (local.get $depth) (i64.const 1)))
        (call $weight (i32.load offset=8 (local.get $node)) (i64.add (local.get $depth) (i64.const 1))))))

  (func $free_all (param $node i32)
    (if (i32.eqz (local.get $node))
      (then (return)))
    (call $free_all (i32.load offset=4 (local.get $node)))
    (call $free_all (i32.load offset=8 (local.get $node)))
    (call $free (local.get $node)))

  (func (export "main") (result i32 i64)
    (local $key i32)
    (local $i i32)
    (local $sum i64)
    (local.set $key (i32.const 1))
    (loop $insert_one
      (local.set $key (i32.add (i32.mul (local.get $key) (i32.const 1664525)) (i32.const 1013904223)))
      (call $insert (local.get $key))
      (local.set $i (i32.add (local.get $i) (i32.const 1)))
      (br_if $insert_one (i32.lt_s (local.get $i) (i32.const 100000))))
    (local.set $sum (call $weight (i32.load (i32.const 8)) (i64.const 1)))
    (call $free_all (i32.load (i32.const 8)))
    (global.get $nodes)
    (local.get $sum)))
