-- A sum in letters: each letter stands for a digit, and different letters for different ones.
--
-- The idea: what follows from earlier choices is computed and not chosen. `SendMore` does the
-- same with a larger sum.
module Column where

-- TO + GO = OUT: the digits of T, O, G and U. The columns are added from the right, so that what
-- can't be right is given up at once: T is the last digit of O + O, U that of T + G and the carry,
-- and O is the carry from there.
toGoOut :: (Int, Int, Int, Int)
toGoOut | carry left == o && distinct [t, o, g, u] = (t, o, g, u)
  where o = digit
        t = unit (o + o)
        g = digit
        left = t + g + carry (o + o)
        u = unit left

digit :: Int
digit = anyOf [0 .. 9]

unit :: Int -> Int
unit n = n `mod` 10

carry :: Int -> Int
carry n = n `div` 10

distinct :: [Int] -> Bool
distinct []       = True
distinct (x : xs) = notElem x xs && distinct xs
