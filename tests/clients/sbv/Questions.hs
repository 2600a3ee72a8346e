-- Questions through SBV: the solver's command is the argument.
module Main (main) where

import Data.SBV
import Data.SBV.Control
import System.Environment (getArgs)

-- the settings of z3, with the solver's command in place of it
settings :: String -> SMTConfig
settings command = z3 {solver = (solver z3) {executable = command, options = const []}}

-- how a proof or a search ended, without the values, which may differ
shown :: Show a => a -> String
shown = head . lines . show

-- the population count of a byte in two ways
halves, oneByOne :: SWord8 -> SWord8
halves x =
  let a = x - ((x `shiftR` 1) .&. 0x55)
      b = (a .&. 0x33) + ((a `shiftR` 2) .&. 0x33)
   in (b + (b `shiftR` 4)) .&. 0x0f
oneByOne x = sum [ite (sTestBit x i) 1 0 | i <- [0 .. 7]]

main :: IO ()
main = do
  [command] <- getArgs
  let config = settings command
  counted <- proveWith config (\x -> halves x .== oneByOne x)
  putStrLn ("population count: " ++ shown counted)
  average <- proveWith config (\x y -> (x + y) `sDiv` 2 .== (x .&. y) + ((x `xor` y) `shiftR` 1 :: SWord8))
  putStrLn ("average: " ++ shown average)
  factors <- satWith config (\x y -> x * y .== (60491 :: SWord16) .&& x .> 1 .&& y .> 1 .&& x .< 256 .&& y .< 256)
  putStrLn ("factors: " ++ shown factors)
  roots <- allSatWith config (\x -> x * x .== (x :: SWord8) .|| x * x .== 4)
  putStrLn ("all roots: " ++ last (lines (show roots)))
  rotated <- proveWith config (\x -> (x `rotateL` 3) `rotateR` 3 .== (x :: SWord32))
  putStrLn ("rotations: " ++ shown rotated)
  core <- runSMTWith config (cored :: Symbolic String)
  putStrLn ("core: " ++ core)
  steps <- runSMTWith config stepped
  putStrLn ("levels: " ++ steps)

-- three constraints of which two cannot hold together
cored :: Symbolic String
cored = do
  setOption (ProduceUnsatCores True)
  x <- sWord8 "x"
  y <- sWord8 "y"
  namedConstraint "small" (x .< 10)
  namedConstraint "large" (x .> 20)
  namedConstraint "other" (y .> 3)
  query $ do
    verdict <- checkSat
    names <- getUnsatCore
    return (show verdict ++ " " ++ show (all (`elem` names) ["small", "large"]))

-- definitions within levels, and values behind a check
stepped :: Symbolic String
stepped = do
  x <- sWord16 "x"
  constrain (x .> 100)
  query $ do
    first <- inNewAssertionStack (constrain (x * x .== 0) >> checkSat)
    y <- freshVar "y"
    constrain (y .== x + (1 :: SWord16))
    second <- checkSat
    values <- (,) <$> getValue x <*> getValue y
    third <- checkSatAssuming [y .< 50, x .< 200]
    return (show (first, second, third, snd values == fst values + 1))
