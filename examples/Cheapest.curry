-- The cheapest journey, and journeys that don't exist.
--
-- The idea: search lists values, and a set function makes all of them one value that a program
-- can look at. So "the least of all" and "there is none" are ordinary functions.
module Cheapest where

import SetFunctions

data Town = Bergen | Oslo | Stockholm | Trondheim | Turku

-- where one can go from a town, and what it costs
ticket :: Town -> (Int, Town)
ticket Bergen    = (30, Oslo)
ticket Bergen    = (45, Trondheim)
ticket Oslo      = (25, Stockholm)
ticket Oslo      = (10, Trondheim)
ticket Trondheim = (50, Stockholm)
ticket Turku     = (35, Stockholm)

-- a journey from a town to another: what it costs, and the towns on the way
journey :: Town -> Town -> (Int, [Town])
journey from to | from == to = (0, [from])
journey from to = (price + rest, from : towns)
  where (price, next) = ticket from
        (rest, towns) = journey next to

-- All journeys, the cheapest first: pairs are sorted by what comes first in them.
journeys :: Town -> Town -> [(Int, [Town])]
journeys from to = sortValues (set2 journey from to)

cheapest :: Town -> Town -> Maybe (Int, [Town])
cheapest from to = case journeys from to of
  []       -> Nothing
  best : _ -> Just best

-- a town from which no journey leads to this one
isCutOff :: Town -> Town
isCutOff to | isEmpty (set2 journey from to) = from
  where from = town

town :: Town
town = Bergen ? Oslo ? Stockholm ? Trondheim ? Turku
