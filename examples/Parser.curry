-- Parsers as functions with several results: what a prefix of the text says, and the rest of it.
--
-- The idea: functions that take functions, and results that are chosen. Alternatives are `?`, and
-- a parser that doesn't fit has no value, so nothing has to be said of failure.
module Parser where

data Expression = Number Int | Plus Expression Expression | Times Expression Expression

type Parser a = String -> (a, String)

-- either parser
orElse :: Parser a -> Parser a -> Parser a
orElse p q s = p s ? q s

-- One parser after another, which depends on what the first has read. The distinction makes the
-- first read its prefix before the second begins, so that a parser may call itself after it.
andThen :: Parser a -> (a -> Parser b) -> Parser b
andThen p f s = case p s of (x, rest) -> f x rest

-- nothing is read
give :: a -> Parser a
give x s = (x, s)

-- a character that passes a test
one :: (Char -> Bool) -> Parser Char
one test (c : cs) | test c = (c, cs)

exactly :: Char -> Parser Char
exactly c = one (== c)

-- a product, or a product and a sum with `+` between them
plus :: Parser Expression
plus = orElse times (andThen times (\x -> andThen (exactly '+') (\_ ->
         andThen plus (\y -> give (Plus x y)))))

-- a digit, or a digit and a product with `*` between them
times :: Parser Expression
times = orElse digit (andThen digit (\x -> andThen (exactly '*') (\_ ->
          andThen times (\y -> give (Times x y)))))

digit :: Parser Expression
digit = andThen (one isDigit) (\c -> give (Number (ord c - ord '0')))

isDigit :: Char -> Bool
isDigit c = ord c >= ord '0' && ord c <= ord '9'

-- what a whole text says
parse :: String -> Expression
parse s | null rest = x
  where (x, rest) = plus s

value :: Expression -> Int
value (Number n)  = n
value (Plus x y)  = value x + value y
value (Times x y) = value x * value y
