; Four clauses that cannot all hold: `unsat`, and with `--budget 0` `unknown`.
; The lines of that answer's proof are explained in docs/PROOFS.md.
(declare-const p Bool)
(declare-const q Bool)
(assert (or p q))
(assert (or p (not q)))
(assert (or q (not p)))
(assert (or (not q) (not p)))
(check-sat)
