-- Two jugs hold three and five litres, without marks, beside a well. Four litres are wanted.
--
-- The idea: a step from one state to the next is a function with several values, and a solution
-- is a chain of them. Whether there is one of so many moves is asked by a set function, so the
-- fewest moves are the first number in the endless list [0 ..] for which there is one.
module Jugs where

import SetFunctions

-- what is in the small jug and in the large one
data Jugs = Jugs Int Int

-- one move: to fill a jug, to empty it, or to pour from one into the other
move :: Jugs -> Jugs
move (Jugs _ b) = Jugs 3 b
move (Jugs a _) = Jugs a 5
move (Jugs _ b) = Jugs 0 b
move (Jugs a _) = Jugs a 0
move (Jugs a b) = Jugs (a - poured) (b + poured)
  where poured = min a (5 - b)
move (Jugs a b) = Jugs (a + poured) (b - poured)
  where poured = min b (3 - a)

-- States of so many moves, none of which comes twice, the last with four litres. The states before
-- are handed on, so that what goes round in a circle is given up at once.
moves :: Int -> [Jugs] -> Jugs -> [Jugs]
moves n before (Jugs a b)
  | elem (Jugs a b) before = failed
  | n == 0                 = if b == 4 then [Jugs a b] else failed
  | otherwise              = Jugs a b : moves (n - 1) (Jugs a b : before) (move (Jugs a b))

solution :: Int -> [Jugs]
solution n = moves n [] (Jugs 0 0)

-- the least number of moves
fewest :: Int
fewest = head [n | n <- [0 ..], notEmpty (set1 solution n)]
