;; How many primes there are below 300,000, by trial division.
(module
  (func $is_prime (param $number i32) (result i32)
    (local $divisor i32)
    (local.set $divisor (i32.const 2))
    (block $ended
      (loop $divisors
        (br_if $ended (i32.gt_s (i32.mul (local.get $divisor) (local.get $divisor)) (local.get $number)))
        (if (i32.eqz (i32.rem_s (local.get $number) (local.get $divisor)))
          (then (return (i32.const 0))))
        (local.set $divisor (i32.add (local.get $divisor) (i32.const 1)))
        (br $divisors)))
    (i32.const 1))

  (func (export "main") (result i32)
    (local $number i32)
    (local $primes i32)
    (local.set $number (i32.const 2))
    (loop $numbers
      (local.set $primes (i32.add (local.get $primes) (call $is_prime (local.get $number))))
      (local.set $number (i32.add (local.get $number) (i32.const 1)))
      (br_if $numbers (i32.lt_s (local.get $number) (i32.const 300000))))
    (local.get $primes)))
