-- The zebra puzzle: five houses stand in a row. In each lives someone of another nation, with a
-- colour, a drink, a pet and a brand of cigarettes of their own. Who drinks water, and whose is
-- the zebra?
--
-- The idea: what isn't known is a free variable, and each fact is an equation that tells some of
-- it. Nobody says in which order the houses are filled in: search finds it.
module Zebra where

data Colour = Red | Green | White | Yellow | Blue
data Nation = English | Spanish | Ukrainian | Norwegian | Japanese
data Drink = Coffee | Tea | Milk | Juice | Water
data Smoke = OldGold | Kools | Chesterfields | LuckyStrike | Parliaments
data Pet = Dog | Snails | Fox | Horse | Zebra

-- who drinks water, and whose is the zebra
zebra :: (Nation, Nation)
zebra | first nations Norwegian
        & third drinks Milk
        & beside Norwegian nations Blue colours
        & rightOf White colours Green colours
        & same English nations Red colours
        & same Coffee drinks Green colours
        & same Kools smokes Yellow colours
        & beside Horse pets Kools smokes
        & same Ukrainian nations Tea drinks
        & same LuckyStrike smokes Juice drinks
        & same Japanese nations Parliaments smokes
        & same Spanish nations Dog pets
        & same OldGold smokes Snails pets
        & beside Fox pets Chesterfields smokes
        & same drinker nations Water drinks
        & same owner nations Zebra pets
      = (drinker, owner)
  where colours = row
        nations = row
        drinks = row
        smokes = row
        pets = row
        drinker, owner free

-- five things that aren't known yet, from the left to the right
row :: [a]
row = [a, b, c, d, e]
  where a, b, c, d, e free

first, third :: [a] -> a -> Bool
first (a : _) x = a =:= x
third (_ : _ : c : _) x = c =:= x

-- x of one row and y of another are of the same house
same :: a -> [a] -> b -> [b] -> Bool
same x (a : _) y (b : _) = x =:= a & y =:= b
same x (_ : as) y (_ : bs) = same x as y bs

-- y is of the house to the right of that of x
rightOf :: a -> [a] -> b -> [b] -> Bool
rightOf x as y (_ : bs) = same x as y bs

-- x and y are of houses side by side
beside :: a -> [a] -> b -> [b] -> Bool
beside x as y bs = rightOf x as y bs ? rightOf y bs x as
