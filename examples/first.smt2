; Two bytes with a given sum, one of which has no low bits: there are such bytes.
(declare-const x (_ BitVec 8))
(declare-const y (_ BitVec 8))
(assert (= (bvadd x y) #x0f))
(assert (= (bvand x #xf0) (bvnot #x0f)))
(assert (= y #x1f))
(check-sat)
; They are not the same byte.
(assert (= x y))
(check-sat)
