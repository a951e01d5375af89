-- Natural numbers as data, and arithmetic on them, which runs backwards too.
--
-- The idea: a function by rules over constructors narrows, so each of its rules is tried for a
-- free variable. Subtraction, halves and factors need no rules of their own. (The operations on
-- `Int` can't do that: they wait for their numbers, as `Waits` shows.)
module Peano where

data Nat = Z | S Nat

add :: Nat -> Nat -> Nat
add Z n     = n
add (S m) n = S (add m n)

times :: Nat -> Nat -> Nat
times Z _     = Z
times (S m) n = add n (times m n)

-- what is to be added to n so that it is m: m - n
minus :: Nat -> Nat -> Nat
minus m n | add n difference =:= m = difference
  where difference free

-- half of an even number
half :: Nat -> Nat
half n | add m m =:= n = m
  where m free

nat :: Int -> Nat
nat n = if n <= 0 then Z else S (nat (n - 1))

int :: Nat -> Int
int Z     = 0
int (S n) = 1 + int n
