-- Functions on lists by equations.
--
-- The idea: an equation with free variables says what a list is made of, and search finds the
-- parts. No loop says how.
module Lists where

-- the last element
last :: [a] -> a
last xs | ys ++ [x] =:= xs = x
  where ys, x free

-- an element, and the list without it
select :: [a] -> (a, [a])
select xs | ys ++ x : zs =:= xs = (x, ys ++ zs)
  where ys, x, zs free

-- a list of some of the elements, in their order
sublist :: [a] -> [a]
sublist []       = []
sublist (x : xs) = x : sublist xs
sublist (_ : xs) = sublist xs
