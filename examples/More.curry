-- What the Curry Report's Prelude and the libraries of other Curry systems have, and the Prelude
-- here hasn't. Import it, or copy what you need: `import More (sort, words)`.
--
-- The idea: nothing of this has to be built in. What needs type classes elsewhere is on integers
-- here (`sort`, `maximum`), or takes the order as its argument (`sortBy`).
module More where

infixr 8 ^
infix  5 \\
infixr 0 $!!

-- Functions

-- f again and again, until p holds
until :: (a -> Bool) -> (a -> a) -> a -> a
until p f x = if p x then x else until p f (f x)

-- f on x, which is evaluated as a whole before; x is data without free variables
($!!) :: (a -> b) -> a -> b
f $!! x | x == x = f x

-- Integers

even, odd :: Int -> Bool
even n = n `mod` 2 == 0
odd n = n `mod` 2 /= 0

signum :: Int -> Int
signum n | n < 0     = -1
         | n == 0    = 0
         | otherwise = 1

-- division rounded towards 0, and what is left of it
quot, rem :: Int -> Int -> Int
quot a b = signum a * signum b * (abs a `div` abs b)
rem a b = a - b * quot a b

gcd :: Int -> Int -> Int
gcd a b = if b == 0 then abs a else gcd b (a `mod` b)

(^) :: Int -> Int -> Int
b ^ n | n == 0 = 1
      | even n = square (b ^ (n `div` 2))
      | n > 0  = b * b ^ (n - 1)
  where square x = x * x

-- a number as a text, and the number that a text of digits stands for
showInt :: Int -> String
showInt n | n < 0     = '-' : showInt (negate n)
          | n < 10    = [chr (ord '0' + n)]
          | otherwise = showInt (n `div` 10) ++ showInt (n `mod` 10)

readInt :: String -> Int
readInt ('-' : s@(_ : _))      = negate (readDigits s)
readInt s@(c : _) | isDigit c = readDigits s

readDigits :: String -> Int
readDigits s = foldl (\n c -> 10 * n + digitToInt c) 0 s

-- Characters

isDigit, isUpper, isLower, isAlpha, isSpace :: Char -> Bool
isDigit = isBetween '0' '9'
isUpper = isBetween 'A' 'Z'
isLower = isBetween 'a' 'z'
isAlpha c = isUpper c || isLower c
isSpace c = elem c " \t\n\r\f\v"

isBetween :: Char -> Char -> Char -> Bool
isBetween a z c = ord a <= ord c && ord c <= ord z

toUpper, toLower :: Char -> Char
toUpper c = if isLower c then chr (ord c - 32) else c
toLower c = if isUpper c then chr (ord c + 32) else c

digitToInt :: Char -> Int
digitToInt c | isDigit c = ord c - ord '0'

-- Maybe and Either

isJust, isNothing :: Maybe a -> Bool
isJust = maybe False (const True)
isNothing = maybe True (const False)

fromJust :: Maybe a -> a
fromJust (Just x) = x

fromMaybe :: a -> Maybe a -> a
fromMaybe x = maybe x id

catMaybes :: [Maybe a] -> [a]
catMaybes ms = [x | Just x <- ms]

mapMaybe :: (a -> Maybe b) -> [a] -> [b]
mapMaybe f xs = catMaybes (map f xs)

lefts :: [Either a b] -> [a]
lefts es = [x | Left x <- es]

rights :: [Either a b] -> [b]
rights es = [y | Right y <- es]

-- Lists: ends, parts and joins

last :: [a] -> a
last [x]             = x
last (_ : xs@(_ : _)) = last xs

init :: [a] -> [a]
init [_]             = []
init (x : xs@(_ : _)) = x : init xs

span, break :: (a -> Bool) -> [a] -> ([a], [a])
span _ [] = ([], [])
span p (x : xs) = if p x then (x : ys, zs) else ([], x : xs)
  where (ys, zs) = span p xs
break p = span (not . p)

splitAt :: Int -> [a] -> ([a], [a])
splitAt n xs = (take n xs, drop n xs)

-- the elements for which p holds, and the others
partition :: (a -> Bool) -> [a] -> ([a], [a])
partition p xs = (filter p xs, filter (not . p) xs)

inits, tails :: [a] -> [[a]]
inits xs = [] : case xs of { [] -> []; y : ys -> map (y :) (inits ys) }
tails xs = xs : case xs of { [] -> []; _ : ys -> tails ys }

isPrefixOf, isSuffixOf, isInfixOf :: [a] -> [a] -> Bool
isPrefixOf xs ys = take (length xs) ys == xs
isSuffixOf xs ys = isPrefixOf (reverse xs) (reverse ys)
isInfixOf xs ys = any (isPrefixOf xs) (tails ys)

intersperse :: a -> [a] -> [a]
intersperse _ [] = []
intersperse y (x : xs) = x : concatMap (\z -> [y, z]) xs

intercalate :: [a] -> [[a]] -> [a]
intercalate xs xss = concat (intersperse xs xss)

-- rows as columns, where all rows have one length
transpose :: [[a]] -> [[a]]
transpose [] = []
transpose (xs : xss) = foldr (zipWith (:)) (map (const []) xs) (xs : xss)

cycle :: [a] -> [a]
cycle xs@(_ : _) = xs ++ cycle xs

-- Lists: folds

foldr1, foldl1 :: (a -> a -> a) -> [a] -> a
foldr1 _ [x] = x
foldr1 f (x : xs@(_ : _)) = f x (foldr1 f xs)
foldl1 f (x : xs) = foldl f x xs

-- A fold from the left that evaluates what it has at each element.
strictFoldl :: (b -> a -> b) -> b -> [a] -> b
strictFoldl _ z [] = z
strictFoldl f z (x : xs) = (\y -> strictFoldl f y xs) $!! f z x

-- what a fold has before each element and after the last
scanl :: (b -> a -> b) -> b -> [a] -> [b]
scanl f z xs = z : case xs of { [] -> []; y : ys -> scanl f (f z y) ys }

maximum, minimum :: [Int] -> Int
maximum = foldr1 max
minimum = foldr1 min

-- Lists: several at once

zip3 :: [a] -> [b] -> [c] -> [(a, b, c)]
zip3 = zipWith3 (,,)

zipWith3 :: (a -> b -> c -> d) -> [a] -> [b] -> [c] -> [d]
zipWith3 f xs ys zs = zipWith id (zipWith f xs ys) zs

unzip :: [(a, b)] -> ([a], [b])
unzip ps = (map fst ps, map snd ps)

-- Lists: order, and lists as sets

-- sorted by an order, as `sortBy (<=)`; what is equal stays in its order
sortBy :: (a -> a -> Bool) -> [a] -> [a]
sortBy _ [] = []
sortBy _ [x] = [x]
sortBy isBefore xs@(_ : _ : _) = merged (sortBy isBefore ys) (sortBy isBefore zs)
  where (ys, zs) = splitAt (length xs `div` 2) xs
        merged [] bs             = bs
        merged (a : as) []       = a : as
        merged (a : as) (b : bs) = if isBefore a b then a : merged as (b : bs) else b : merged (a : as) bs

sort :: [Int] -> [Int]
sort = sortBy (<=)

-- the order of a dictionary, by the characters' numbers: `sortBy isTextBefore`
isTextBefore :: String -> String -> Bool
isTextBefore [] _ = True
isTextBefore (_ : _) [] = False
isTextBefore (c : s) (d : t) = ord c < ord d || c == d && isTextBefore s t

-- each element once, where it comes first
nub :: [a] -> [a]
nub [] = []
nub (x : xs) = x : nub (filter (/= x) xs)

-- a list without the first x
delete :: a -> [a] -> [a]
delete _ [] = []
delete x (y : ys) = if x == y then ys else y : delete x ys

(\\), union, intersect :: [a] -> [a] -> [a]
xs \\ ys = foldl (flip delete) xs ys
union xs ys = xs ++ (nub ys \\ xs)
intersect xs ys = filter (\x -> elem x ys) xs

-- equal elements that stand side by side
group :: [a] -> [[a]]
group [] = []
group (x : xs) = (x : same) : group others
  where (same, others) = span (== x) xs

find :: (a -> Bool) -> [a] -> Maybe a
find p xs = case filter p xs of { [] -> Nothing; x : _ -> Just x }

-- the place of an element, from 0 on
elemIndex :: a -> [a] -> Maybe Int
elemIndex x xs = lookup x (zip xs [0 ..])

-- Texts

lines, words :: String -> [String]
lines s = case break (== '\n') s of
  ([], [])           -> []
  (line, [])         -> [line]
  (line, _ : others) -> line : lines others
words s = case break isSpace (dropWhile isSpace s) of
  ([], _)        -> []
  (word, others) -> word : words others

unlines, unwords :: [String] -> String
unlines = concatMap (++ "\n")
unwords = intercalate " "
