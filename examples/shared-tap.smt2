; The compiler that wrote this names the filtered tap once, with let, and uses it twice. let is outside the
; subset, so the text is refused with 14 at the word let: no text of the subset goes on with it after a bracket.
; Write (filter out0) in both places instead: equal terms are one node.
(set-logic QF_UF)
(declare-sort Signal 0)
(declare-fun in1 () Signal)
(declare-fun in2 () Signal)
(declare-fun out0 () Signal)
(declare-fun filter (Signal) Signal)
(declare-fun mix (Signal Signal) Signal)

(assert (= in1 in2))
(assert (let ((tap (filter out0)))
  (not (= (mix in1 tap) (mix in2 tap)))))
(check-sat)
