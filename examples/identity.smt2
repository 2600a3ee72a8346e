; x + y = (x | y) + (x & y), written with the operators `bvadd`, `bvand` and `bvnot` alone.
; That the two sides differ is asserted bit by bit: d is their difference, and one bit of it is set.
(declare-const x (_ BitVec 6))
(declare-const y (_ BitVec 6))
(declare-const left (_ BitVec 6))
(declare-const right (_ BitVec 6))
(declare-const d (_ BitVec 6))
(assert (= left (bvadd x y)))
(assert (= right (bvadd (bvnot (bvand (bvnot x) (bvnot y))) (bvand x y))))
(assert (= left (bvadd right d)))
(assert (= (bvand d #b000001) #b000001))
(check-sat)
