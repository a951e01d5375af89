-- The countries of a map in three colours, so that neighbours differ.
--
-- The idea: to choose and to test. A local name stands for one choice wherever it is used, so the
-- guard tests the colours that the answer has.
module Colouring where

data Colour = Red | Green | Blue

colour :: Colour
colour = Red ? Green ? Blue

-- the colours of Austria, Germany, Switzerland, Italy and France
alps :: (Colour, Colour, Colour, Colour, Colour)
alps | a /= g && a /= s && a /= i && g /= s && g /= f && s /= i && s /= f && i /= f
     = (a, g, s, i, f)
  where a = colour
        g = colour
        s = colour
        i = colour
        f = colour
