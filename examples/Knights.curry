-- Knights, whose every sentence is true, and knaves, whose every sentence is false. Who is what?
--
-- The idea: what is said may be false. So it is asked by `==`, which answers True or False, and
-- not demanded by `=:=`. And `==` waits for free variables, so the kinds are chosen.
module Knights where

data Kind = Knight | Knave

-- what somebody may be
kind :: Kind
kind = Knight ? Knave

-- whether one of this kind can say a sentence that is true, or false
says :: Kind -> Bool -> Bool
says Knight sentence = sentence
says Knave sentence  = not sentence

-- The first says: "We are both knaves."
both :: (Kind, Kind)
both | says a (a == Knave && b == Knave) = (a, b)
  where a = kind
        b = kind

-- The first says: "The second is a knave." The second says: "The others are of one kind."
three :: (Kind, Kind, Kind)
three | says a (b == Knave) && says b (a == c) = (a, b, c)
  where a = kind
        b = kind
        c = kind

-- what the third of them is, in each case
third :: Kind
third = case three of (_, _, c) -> c
