-- Magic squares: the numbers from 1 to 9 in three rows, so that each row, each column and both
-- diagonals have the sum 15.
--
-- The idea: to choose an order and test it while it is made. A test of the first row looks at
-- three numbers. Where their sum is another, the rest of the order is never made.
module Magic where

import Permutation

-- a magic square, row by row
magic :: [Int]
magic | haveSum rows && haveSum (columns rows) && haveSum (diagonals rows) = rows
  where rows = permutation [1 .. 9]

-- whether each three numbers of a list have the sum 15
haveSum :: [Int] -> Bool
haveSum []                 = True
haveSum (a : b : c : rest) = a + b + c == 15 && haveSum rest

columns :: [a] -> [a]
columns [a, b, c, d, e, f, g, h, i] = [a, d, g, b, e, h, c, f, i]

diagonals :: [a] -> [a]
diagonals [a, _, c, _, e, _, g, _, i] = [a, e, i, c, e, g]
