; A byte is masked twice. What the second mask takes away cannot come back.
(declare-const word (_ BitVec 8))
(declare-const masked (_ BitVec 8))
(assert (= masked (bvand (bvand word #xf0) #b00111111)))
(check-sat)
(assert (= (bvand masked #xc0) #b01000000))
(check-sat)
