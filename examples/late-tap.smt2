; A patch hears its own output of the block before, through a filter:
;
;   out1 = mix(in1, filter(out0))
;   out2 = mix(in2, filter(out1))
;
; The rewrite drops a buffer and reads the tap one block late: late = mix(in2, filter(out0)). A gate follows in
; both graphs: it passes a signal for which it is open, and is silent else. The last assert says that the gated
; outputs differ. The answer is sat, with modules that make them differ.
(set-logic QF_UF)
(declare-sort Signal 0)
(declare-fun in1 () Signal)
(declare-fun in2 () Signal)
(declare-fun out0 () Signal)
(declare-fun out1 () Signal)
(declare-fun out2 () Signal)
(declare-fun late () Signal)
(declare-fun silence () Signal)
(declare-fun filter (Signal) Signal)
(declare-fun mix (Signal Signal) Signal)
(declare-fun open (Signal) Bool)

(assert (and (= out1 (mix in1 (filter out0)))
             (= out2 (mix in2 (filter out1)))))
(assert (= late (mix in2 (filter out0))))
(assert (not (= (ite (open out2) out2 silence)
                (ite (open late) late silence))))
(check-sat)
