-- A family tree, which can be asked in every direction.
--
-- The idea: a function by rules over constructors is a table, and search reads it from both sides:
-- who the mother of someone is, and whose mother someone is.
module Family where

data Person = Ada | Ben | Cleo | Dan | Eve | Finn | Gus

-- the mother of a person
mother :: Person -> Person
mother Cleo = Ada
mother Dan  = Ada
mother Eve  = Cleo
mother Finn = Cleo

-- the father of a person
father :: Person -> Person
father Cleo = Ben
father Dan  = Ben
father Gus  = Dan

parent :: Person -> Person
parent x = mother x ? father x

grandparent :: Person -> Person
grandparent x = parent (parent x)

-- another child of the same mother
sibling :: Person -> Person
sibling x | mother x =:= mother y &> x /= y = y
  where y free
