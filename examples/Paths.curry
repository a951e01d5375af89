-- Paths in a graph with cycles.
--
-- The idea: a function with several values is a relation, here the edges of a graph, and what is
-- asked of it twice is a composition. Walks are endless, since the graph has cycles. Their
-- listing is stopped; or nodes that were seen are left out, and then the search ends.
module Paths where

import SetFunctions

data Node = A | B | C | D | E

-- a node to which an edge leads
edge :: Node -> Node
edge A = B
edge A = C
edge B = D
edge C = A
edge C = D
edge D = B
edge D = E

-- a walk from a node to another, as the list of its nodes
walk :: Node -> Node -> [Node]
walk from to | from == to = [from]
walk from to = from : walk (edge from) to

-- the same without a node that comes twice
path :: Node -> Node -> [Node]
path from to = onwards [from] from to

-- a path from a node on, where these nodes were seen
onwards :: [Node] -> Node -> Node -> [Node]
onwards seen from to
  | from == to        = [from]
  | notElem next seen = from : onwards (next : seen) next to
  where next = edge from

-- whether there is a path
isReached :: Node -> Node -> Bool
isReached from to = notEmpty (set2 path from to)
