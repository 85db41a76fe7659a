(set-logic QF_BV)
(define-sort |top_s| () (_ BitVec 49))
(define-fun |top_is| ((state |top_s|)) Bool (= ((_ extract 0 0) state) #b1))
(define-fun |top#0| ((state |top_s|)) (_ BitVec 16) ((_ extract 16 1) state)) ; \a
(define-fun |top_n a| ((state |top_s|)) (_ BitVec 16) (|top#0| state))
(define-fun |top#1| ((state |top_s|)) (_ BitVec 16) ((_ extract 32 17) state)) ; \b
(define-fun |top_n b| ((state |top_s|)) (_ BitVec 16) (|top#1| state))
(define-fun |top#2| ((state |top_s|)) (_ BitVec 16) ((_ extract 48 33) state)) ; \c
(define-fun |top_n c| ((state |top_s|)) (_ BitVec 16) (|top#2| state))
(define-fun |top#3| ((state |top_s|)) Bool (bvult (|top#0| state) (|top#1| state))) ; $0$formal$choose/unsat_order.v:3$1_CHECK[0:0]$5
(define-fun |top_u 0| ((state |top_s|)) Bool (or (|top#3| state) (not true))) ; $assume$choose/unsat_order.v:3$14
(define-fun |top#4| ((state |top_s|)) Bool (bvult (|top#1| state) (|top#2| state))) ; $0$formal$choose/unsat_order.v:4$2_CHECK[0:0]$7
(define-fun |top_u 1| ((state |top_s|)) Bool (or (|top#4| state) (not true))) ; $assume$choose/unsat_order.v:4$15
(define-fun |top#5| ((state |top_s|)) Bool (bvult (|top#2| state) (|top#0| state))) ; $0$formal$choose/unsat_order.v:5$3_CHECK[0:0]$9
(define-fun |top_u 2| ((state |top_s|)) Bool (or (|top#5| state) (not true))) ; $assume$choose/unsat_order.v:5$16
(define-fun |top_a| ((state |top_s|)) Bool true)
(define-fun |top_u| ((state |top_s|)) Bool (and
  (|top_u 0| state)
  (|top_u 1| state)
  (|top_u 2| state)
))
(define-fun |top_i| ((state |top_s|)) Bool true)
(define-fun |top_h| ((state |top_s|)) Bool true)
(define-fun |top_t| ((state |top_s|) (next_state |top_s|)) Bool true) ; end of module top
(declare-fun s () |top_s|)
(assert (|top_u| s))
(check-sat)
