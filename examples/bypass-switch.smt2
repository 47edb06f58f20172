; A filter has a bypass switch. The rewrite moves the switch from in front of the mixer to behind it:
;
;   old = mix(in, tap if bypass, else filter(tap))
;   new = mix(in, tap) if bypass, else mix(in, filter(tap))
;
; A limiter follows in both graphs: what is loud is limited, the rest passes. The last assert says that the
; outputs differ. No modules make all asserts true, so the answer is unsat and the rewrite is valid.
(set-logic QF_UF)
(declare-sort Signal 0)
(declare-fun in () Signal)
(declare-fun tap () Signal)
(declare-fun old () Signal)
(declare-fun new () Signal)
(declare-fun bypass () Bool)
(declare-fun filter (Signal) Signal)
(declare-fun mix (Signal Signal) Signal)
(declare-fun loud (Signal) Bool)
(declare-fun limit (Signal) Signal)

(assert (= old (mix in (ite bypass tap (filter tap)))))
(assert (= new (ite bypass (mix in tap) (mix in (filter tap)))))
(assert (not (= (ite (loud old) (limit old) old)
                (ite (loud new) (limit new) new))))
(check-sat)
