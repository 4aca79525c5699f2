;; Builds a list of 1,000,000 nodes, sums it and frees it; gives the sum. A node is its number and the next node, in a cell of 16
;; bytes, which is the last one freed, or else the next one of the memory.
(module
  (memory 256)
  (global $freed (mut i32) (i32.const 0))
  (global $top (mut i32) (i32.const 16))

  (func $allocate (result i32)
    (local $cell i32)
    (if (result i32) (global.get $freed)
      (then
        (local.set $cell (global.get $freed))
        (global.set $freed (i32.load (local.get $cell)))
        (local.get $cell))
      (else
        (local.set $cell (global.get $top))
        (global.set $top (i32.add (local.get $cell) (i32.const 16)))
        (local.get $cell))))

  (func $free (param $cell i32)
    (i32.store (local.get $cell) (global.get $freed))
    (global.set $freed (local.get $cell)))

  (func (export "main") (result i64)
    (local $list i32)
    (local $node i32)
    (local $number i32)
    (local $sum i64)
    (local.set $number (i32.const 1))
    (loop $build
      (local.set $node (call $allocate))
      (i64.store (local.get $node) (i64.extend_i32_s (local.get $number)))
      (i32.store offset=8 (local.get $node) (local.get $list))
      (local.set $list (local.get $node))
      (local.set $number (i32.add (local.get $number) (i32.const 1)))
      (br_if $build (i32.le_s (local.get $number) (i32.const 1000000))))
    (block $summed
      (loop $add
        (br_if $summed (i32.eqz (local.get $node)))
        (local.set $sum (i64.add (local.get $sum) (i64.load (local.get $node))))
        (local.set $node (i32.load offset=8 (local.get $node)))
        (br $add)))
    (block $freed_all
      (loop $free_one
        (br_if $freed_all (i32.eqz (local.get $list)))
        (local.set $node (i32.load offset=8 (local.get $list)))
        (call $free (local.get $list))
        (local.set $list (local.get $node))
        (br $free_one)))
    (local.get $sum)))
