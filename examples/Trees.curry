-- Test data from a data type: all trees of a size, and a property of them.
--
-- The idea: search makes all data of a size, and a set function asks whether one of them breaks a
-- property.
module Trees where

import SetFunctions

data Tree = Leaf | Node Tree Tree

-- a tree with so many inner nodes
tree :: Int -> Tree
tree n | n == 0 = Leaf
       | n > 0  = Node (tree left) (tree (n - 1 - left))
  where left = anyOf [0 .. n - 1]

mirror :: Tree -> Tree
mirror Leaf       = Leaf
mirror (Node t u) = Node (mirror u) (mirror t)

-- how many trees of a size there are
count :: Int -> Int
count n = length (sortValues (set1 tree n))

-- a tree that isn't the mirror of its mirror
counterexample :: Int -> Tree
counterexample n | mirror (mirror t) /= t = t
  where t = tree n

-- whether no tree of a size is one
holds :: Int -> Bool
holds n = isEmpty (set1 counterexample n)
