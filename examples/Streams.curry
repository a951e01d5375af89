-- Lists without an end, of which a part is looked at.
--
-- The idea: nothing is evaluated before it is needed, so a list may go on for ever, and who asks
-- decides how much of it there is. A list can't be defined through itself, but a function can.
module Streams where

squares :: [Int]
squares = [n * n | n <- [1 ..]]

-- the sums of the first numbers of a list
sums :: [Int] -> [Int]
sums = sumsFrom 0

sumsFrom :: Int -> [Int] -> [Int]
sumsFrom _ []       = []
sumsFrom n (x : xs) = n + x : sumsFrom (n + x) xs

-- each number is the sum of the two before it
fibonacci :: [Int]
fibonacci = additive 0 1

additive :: Int -> Int -> [Int]
additive a b = a : additive b (a + b)

powers :: Int -> [Int]
powers n = iterate (* n) 1

-- the numbers of two rising lists, each once
merge :: [Int] -> [Int] -> [Int]
merge (x : xs) (y : ys) = case compare x y of
  LT -> x : merge xs (y : ys)
  EQ -> x : merge xs ys
  GT -> y : merge (x : xs) ys

-- the way of a number to 1: even ones are halved, odd ones become three times themselves and one
collatz :: Int -> [Int]
collatz n = takeWhile (> 1) (iterate next n)
  where next k | k `mod` 2 == 0 = k `div` 2
               | otherwise      = 3 * k + 1
