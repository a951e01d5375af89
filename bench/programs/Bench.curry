module Bench where

import Permutation
import SetFunctions

-- all numbers of so many bits
bit :: Int
bit = 0 ? 1

grow :: Int -> Int -> Int
grow n x = if n == 0 then x else grow (n - 1) (x + x + bit)

-- naive reverse
nrev :: [a] -> [a]
nrev []     = []
nrev (x:xs) = nrev xs ++ [x]

sorted :: [Int] -> [Int]
sorted xs | rises ys = ys
  where ys = permutation xs

rises :: [Int] -> Bool
rises []           = True
rises [_]          = True
rises (x : y : ys) = x <= y && rises (y : ys)

-- a chain of shared pairs, whose tree has 2 ^ n leaves
data Pairs = Leaf | Pair Pairs Pairs

deep :: Int -> Pairs
deep n = if n == 0 then Leaf else twin (deep (n - 1))

twin :: Pairs -> Pairs
twin x = Pair x x

-- all numbers of four digits
digit :: Int
digit = 0 ? 1 ? 2 ? 3 ? 4 ? 5 ? 6 ? 7 ? 8 ? 9

number :: Int
number = ((digit * 10 + digit) * 10 + digit) * 10 + digit

-- and twice as many
more :: Int
more = bit * 10000 + number

-- a choice of the elements of a list
anyOf :: [a] -> a
anyOf [x]          = x
anyOf (x : y : ys) = x ? anyOf (y : ys)

-- a loop, each turn of which leaves four nodes behind
down :: Int -> Int
down n = if n == 0 then 0 else down (n - 1)
