-- Each form of the language once, to look up how it is written: the table of forms of the manual
-- as one module.
module Forms where

import Prelude
import qualified Prelude as P

infixr 5 :+
infixl 6 +++, `plus`

-- data types, synonyms and signatures

data Tree a = Leaf | Node (Tree a) a (Tree a)
newtype Age = Age Int
data Path = End | Int :+ Path
type Board = [Int]

size :: Tree a -> Int
size Leaf         = 0
size (Node l _ r) = size l + 1 + size r

board, otherBoard :: Board
board = [17, 0xff, 0o17, 0b101, -1]
otherBoard = P.map P.negate board P.++ Forms.board

-- guards and local names

sign n | n > 0     = 1
       | n == 0    = 0
       | otherwise = -1

area = f 1 + n where
  n = length xs
  xs = [1, 2]
  f y = n + y

-- choices, equations and constraints

coin = 0 ? 1
last xs | ys ++ [x] =:= xs = x where x, ys free
both x y = (x =:= 1 & y =:= 2) &> x + y

-- distinctions

digit n = case n of { 0 -> 'a'; _ -> 'b' }
choose x = fcase x of { True -> 1; False -> 2 }
number m = case m of
  Just n | n > 0     -> n + k
         | otherwise -> k
    where k = 1
  Nothing -> 0
test b = if b then 1 else 2

-- patterns that bind names, and functions

parts = let (a, b) = (1, 2) in a + b
twice f = \x -> f (f x)
sections = (map (+ 1) [1], map (1 -) [1], map (`mod` 2) [3], foldr (+) 0 [1])
composed = (negate . abs) $ -1

-- lists, texts and tuples

ranges = ([1, 2], take 2 [1 ..], [1 .. 9], take 2 [1, 3 ..], [1, 3 .. 9])
products xs = [x * y | x <- xs, let y = 2, x > 1]
numbers ms = [n | Just n <- ms]
texts = ("text", 'c', '\n', '\x41')
tuples = ((), (1, 'a'), (,) 1 'a')

-- patterns

begin all@(x : _) = (x, all)
crossed (a, [b, _]) = (b, a)
isMinusOne (-1) = True
isMinusOne 2    = False
name "ab"     = 1
name ['c', _] = 2

-- operators

x +++ y = x + y
x `plus` y = x + y
steps End         = 0
steps (_ :+ rest) = 1 + steps rest

-- a comment to the end of the line
{- a comment {- in a comment -} -}
