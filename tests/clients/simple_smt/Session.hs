-- A session through simple-smt: the words of the solver's command are the arguments.
module Main (main) where

import SimpleSMT hiding (concat, mod, value)
import qualified SimpleSMT as Smt
import System.Environment (getArgs)

-- x * y is this number, for words of 16 bits
isProduct :: SExpr -> SExpr -> Integer -> SExpr
isProduct x y n = bvMul x y `eq` bvHex 16 n

-- both lie strictly between 1 and a bound, so that the product does not wrap
areSmall :: SExpr -> SExpr -> Integer -> [SExpr]
areSmall x y bound = concat [[bvULt (bvHex 16 1) z, bvULt z (bvHex 16 bound)] | z <- [x, y]]

value :: Smt.Value -> Integer
value (Bits _ n) = n
value other = error (show other)

main :: IO ()
main = do
  (program : arguments) <- getArgs
  solver <- newSolver program arguments Nothing
  setLogic solver "QF_BV"
  x <- declare solver "x" (tBits 16)
  y <- declare solver "y" (tBits 16)
  mapM_ (assert solver) (areSmall x y 256)
  inNewScope solver $ do
    assert solver (isProduct x y 60491)
    check solver >>= print
    found <- mapM (getExpr solver) [x, y]
    print (product (map value found) == 60491)
  inNewScope solver $ do
    assert solver (isProduct x y 251)
    check solver >>= print
  parity <- define solver "parity" (tBits 16) (bvAnd x (bvHex 16 1))
  assert solver (eq parity (bvHex 16 1))
  check solver >>= print
  odd <- getExpr solver x
  print (value odd `mod` 2 == 1)
  _ <- stop solver
  return ()
