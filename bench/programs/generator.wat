;; The upper bits of the 3,000,000th number of a linear congruential generator.
(module
  (func (export "main") (result i64)
    (local $round i32)
    (local $seed i64)
    (local.set $seed (i64.const 1))
    (loop $rounds
      (local.set $seed
        (i64.add (i64.mul (local.get $seed) (i64.const 6364136223846793005)) (i64.const 1442695040888963407)))
      (local.set $round (i32.add (local.get $round) (i32.const 1)))
      (br_if $rounds (i32.lt_s (local.get $round) (i32.const 3000000))))
    (i64.shr_u (local.get $seed) (i64.const 33))))
