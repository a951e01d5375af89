-- Numbers that aren't known yet.
--
-- The idea: arithmetic waits for the values of its variables, and equations and functions by rules
-- give them. `&` goes on with one side while the other waits.
module Waits where

-- a digit, whose value is found by the rules
isDigit :: Int -> Bool
isDigit 0 = True
isDigit 1 = True
isDigit 2 = True
isDigit 3 = True
isDigit 4 = True
isDigit 5 = True
isDigit 6 = True
isDigit 7 = True
isDigit 8 = True
isDigit 9 = True

-- a number of one digit or two that is four times the sum of its digits
fourTimes :: Int
fourTimes | isDigit t & isDigit u & n =:= 4 * (t + u) = n
  where t, u free
        n = 10 * t + u
