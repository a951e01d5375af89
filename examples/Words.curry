-- A list of words, and words with holes.
--
-- The idea: a word with a hole is a list with a free variable in it. The table of words is a
-- function by rules, which narrows the variable to each letter that makes a word.
module Words where

isWord :: String -> Bool
isWord "ape" = True
isWord "bat" = True
isWord "bee" = True
isWord "bet" = True
isWord "cat" = True
isWord "cot" = True
isWord "dog" = True
isWord "dot" = True
isWord "eat" = True
isWord "pen" = True
isWord "tea" = True
isWord "ten" = True

-- the words that fit, where some letters may be free
fits :: String -> String
fits word | isWord word = word

-- another word, which differs from one of three letters in one place
change :: String -> String
change word | other /= word = other
  where other = fits (hole word)

-- a word of three letters with a hole in it
hole :: String -> String
hole [_, b, c] = [x, b, c]
  where x free
hole [a, _, c] = [a, x, c]
  where x free
hole [a, b, _] = [a, b, x]
  where x free

-- words from one to another, each of which is a change of the one before it, and none twice
ladder :: String -> String -> [String]
ladder from to = onwards [from] from to

onwards :: [String] -> String -> String -> [String]
onwards seen from to
  | from == to        = [from]
  | notElem next seen = from : onwards (next : seen) next to
  where next = change from

-- three words under one another, whose columns are words too
square :: [String]
square | isWord [a, b, c] & isWord [a, d, g] & isWord [d, e, f] & isWord [b, e, h]
         & isWord [g, h, i] & isWord [c, f, i]
       = [[a, b, c], [d, e, f], [g, h, i]]
  where a, b, c, d, e, f, g, h, i free
