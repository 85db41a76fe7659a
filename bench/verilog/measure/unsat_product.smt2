(set-logic QF_BV)
(define-sort |top_s| () (_ BitVec 33))
(define-fun |top_is| ((state |top_s|)) Bool (= ((_ extract 0 0) state) #b1))
(define-fun |top#0| ((state |top_s|)) (_ BitVec 16) ((_ extract 16 1) state)) ; \x
(define-fun |top_n x| ((state |top_s|)) (_ BitVec 16) (|top#0| state))
(define-fun |top#1| ((state |top_s|)) (_ BitVec 16) ((_ extract 32 17) state)) ; \y
(define-fun |top_n y| ((state |top_s|)) (_ BitVec 16) (|top#1| state))
(define-fun |top#2| ((state |top_s|)) (_ BitVec 1) (bvand ((_ extract 0 0) (|top#0| state)) ((_ extract 0 0) (|top#1| state)))) ; $0$formal$measure/unsat_product.v:4$1_CHECK[0:0]$6
(define-fun |top_u 0| ((state |top_s|)) Bool (or (= ((_ extract 0 0) (|top#2| state)) #b1) (not true))) ; $assume$measure/unsat_product.v:4$15
(define-fun |top#3| ((state |top_s|)) (_ BitVec 16) (bvmul (|top#0| state) (|top#1| state))) ; \product
(define-fun |top#4| ((state |top_s|)) (_ BitVec 1) (bvnot ((_ extract 0 0) (|top#3| state)))) ; $0$formal$measure/unsat_product.v:5$2_CHECK[0:0]$8
(define-fun |top_u 1| ((state |top_s|)) Bool (or (= ((_ extract 0 0) (|top#4| state)) #b1) (not true))) ; $assume$measure/unsat_product.v:5$16
(define-fun |top#5| ((state |top_s|)) Bool (bvult #b0000000001100100 (|top#3| state))) ; $0$formal$measure/unsat_product.v:6$3_CHECK[0:0]$10
(define-fun |top_u 2| ((state |top_s|)) Bool (or (|top#5| state) (not true))) ; $assume$measure/unsat_product.v:6$17
(define-fun |top_a| ((state |top_s|)) Bool true)
(define-fun |top_u| ((state |top_s|)) Bool (and
  (|top_u 0| state)
  (|top_u 1| state)
  (|top_u 2| state)
))
(define-fun |top_i| ((state |top_s|)) Bool true)
(define-fun |top_h| ((state |top_s|)) Bool true)
(define-fun |top_t| ((state |top_s|) (next_state |top_s|)) Bool true) ; end of module top
(declare-fun s () |top_s|)
(assert (|top_u| s))
(check-sat)
