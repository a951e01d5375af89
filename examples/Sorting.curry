-- Sorting by search: a list in an order in which it rises.
--
-- The idea: a program may say what is wanted and not how it is found.
module Sorting where

import Permutation

sorted :: [Int] -> [Int]
sorted xs | rises ys = ys
  where ys = permutation xs

rises :: [Int] -> Bool
rises []           = True
rises [_]          = True
rises (x : y : ys) = x <= y && rises (y : ys)
