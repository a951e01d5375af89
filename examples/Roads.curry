-- Towns that can be reached by roads, one of which leads back.
--
-- The idea: search goes level by level. One that follows the first rule to its end would go round
-- and round, and never come to an answer.

data Town = Bergen | Oslo | Trondheim

road Bergen = Oslo
road Oslo = Bergen
road Oslo = Trondheim

reach town = reach (road town) ? town
