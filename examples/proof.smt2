; One of two truths holds.
(declare-const p Bool)
(declare-const q Bool)
(assert (or p q))
(check-sat)
; But neither does. The lines of this script's proof are explained in docs/PROOFS.md.
(assert (not p))
(assert (not q))
(check-sat)
