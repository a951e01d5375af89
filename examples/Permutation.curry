-- Lists in every order.
--
-- The idea: both rules of `insert` match a list with elements, and both are tried.
module Permutation (permutation) where

permutation :: [a] -> [a]
permutation []       = []
permutation (x : xs) = insert x (permutation xs)

-- a list with an element somewhere in it
insert :: a -> [a] -> [a]
insert x ys       = x : ys
insert x (y : ys) = y : insert x ys
