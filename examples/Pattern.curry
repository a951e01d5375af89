-- Regular expressions: the texts that one describes, and whether it describes a text.
--
-- The idea: one definition is asked in two ways. It makes texts, and compared with a text that is
-- known it tests it.
module Pattern where

data Pattern = Letter Char | Then Pattern Pattern | Or Pattern Pattern | Many Pattern

-- a text that a pattern describes
text :: Pattern -> String
text (Letter c) = [c]
text (Then p q) = text p ++ text q
text (Or p q)   = text p ? text q
text (Many p)   = "" ? (text p ++ text (Many p))

describes :: Pattern -> String -> Bool
describes p s | text p =:= s = True

-- ab or a, again and again
example :: Pattern
example = Many (Or (Then (Letter 'a') (Letter 'b')) (Letter 'a'))
