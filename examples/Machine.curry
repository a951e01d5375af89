-- A small machine with a stack, that runs programs, and finds them.
--
-- The idea: an interpreter is a function from a program to its result. Where the program is a
-- free variable and the result is known, search finds programs that give it, the short ones
-- first. The numbers are data (`Peano`), so that they run backwards too.
module Machine where

import Peano

data Instruction = One | Add | Copy

-- The stack after a program, from the stack before it. An instruction that doesn't find what it
-- needs on the stack has no rule, so a program with one is given up there.
run :: [Instruction] -> [Nat] -> [Nat]
run [] stack                = stack
run (One : is) stack        = run is (S Z : stack)
run (Add : is) (m : n : ns) = run is (add m n : ns)
run (Copy : is) (n : ns)    = run is (n : n : ns)

-- a program that leaves this number, and nothing else
makes :: Int -> [Instruction]
makes n | run program [] =:= [nat n] = program
  where program free
