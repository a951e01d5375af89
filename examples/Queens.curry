-- N queens on a board of N rows and columns, none of which attacks another: the row of the queen
-- in each column.
--
-- The idea: to choose and to test, lazily: as soon as two queens of an order attack each other,
-- the rest of it is never made. A set function then asks for all boards, or whether there is one.
module Queens (queens, boards, solvable) where

import Permutation
import SetFunctions

queens :: Int -> [Int]
queens n | peaceful rows = rows
  where rows = permutation [1 .. n]

-- whether no two queens stand on one diagonal
peaceful :: [Int] -> Bool
peaceful []       = True
peaceful (q : qs) = and (zipWith (differs q) [1 ..] qs) && peaceful qs

-- whether queens in rows q and r, so many columns apart, stand on different diagonals
differs :: Int -> Int -> Int -> Bool
differs q distance r = abs (q - r) /= distance

-- all boards, sorted
boards :: Int -> [[Int]]
boards n = sortValues (set1 queens n)

-- whether there is one
solvable :: Int -> Bool
solvable n = notEmpty (set1 queens n)
