-- SEND + MORE = MONEY: each letter stands for a digit, and different letters for different ones.
--
-- The idea: only three letters are chosen. What follows from them is computed, and each test is
-- made as soon as its letters are there, so that most choices are given up early. `Column` does
-- the same with a smaller sum.
module SendMore where

-- the numbers that SEND, MORE and MONEY stand for
sendMore :: (Int, Int, Int)
sendMore | e /= d
           && notElem y [d, e]
           && notElem n [d, e, y]
           && notElem r [d, e, y, n]
           && notElem o [d, e, y, n, r]
           && notElem m [d, e, y, n, r, o]
           && s > 0 && s <= 9 && notElem s [d, e, y, n, r, o, m]
         = (number [s, e, n, d], number [m, o, r, e], number [m, o, n, e, y])
  where d = digit
        e = digit
        n = digit
        -- D + E ends in Y
        y = unit (d + e)
        ones = carry (d + e)
        -- N + R and the carry end in E
        r = unit (e - n - ones)
        tens = carry (n + r + ones)
        -- E + O and the carry end in N
        o = unit (n - e - tens)
        hundreds = carry (e + o + tens)
        -- S + M and the carry are O and ten times M, which is a carry too and no 0
        m = 1
        s = o + 10 * m - m - hundreds

digit :: Int
digit = anyOf [0 .. 9]

unit :: Int -> Int
unit n = n `mod` 10

carry :: Int -> Int
carry n = n `div` 10

-- the number that has these digits
number :: [Int] -> Int
number digits = foldl (\n d -> 10 * n + d) 0 digits
