(set-logic QF_BV)
(define-sort |top_s| () (_ BitVec 25))
(define-fun |top_is| ((state |top_s|)) Bool (= ((_ extract 0 0) state) #b1))
(define-fun |top#0| ((state |top_s|)) (_ BitVec 12) ((_ extract 12 1) state)) ; \x
(define-fun |top_n x| ((state |top_s|)) (_ BitVec 12) (|top#0| state))
(define-fun |top#1| ((state |top_s|)) (_ BitVec 12) ((_ extract 24 13) state)) ; \y
(define-fun |top_n y| ((state |top_s|)) (_ BitVec 12) (|top#1| state))
(define-fun |top#2| ((state |top_s|)) (_ BitVec 24) (bvmul (concat #b000000000000 (|top#0| state)) (concat #b000000000000 (|top#1| state)))) ; \product
(define-fun |top#3| ((state |top_s|)) Bool (= (|top#2| state) #b010100111000110010100101)) ; $0$formal$choose/product.v:4$1_CHECK[0:0]$6
(define-fun |top_u 0| ((state |top_s|)) Bool (or (|top#3| state) (not true))) ; $assume$choose/product.v:4$15
(define-fun |top#4| ((state |top_s|)) Bool (bvult (|top#0| state) (|top#1| state))) ; $0$formal$choose/product.v:5$2_CHECK[0:0]$8
(define-fun |top_u 1| ((state |top_s|)) Bool (or (|top#4| state) (not true))) ; $assume$choose/product.v:5$16
(define-fun |top#5| ((state |top_s|)) Bool (bvult #b000000000001 (|top#0| state))) ; $0$formal$choose/product.v:6$3_CHECK[0:0]$10
(define-fun |top_u 2| ((state |top_s|)) Bool (or (|top#5| state) (not true))) ; $assume$choose/product.v:6$17
(define-fun |top_a| ((state |top_s|)) Bool true)
(define-fun |top_u| ((state |top_s|)) Bool (and
  (|top_u 0| state)
  (|top_u 1| state)
  (|top_u 2| state)
))
(define-fun |top_i| ((state |top_s|)) Bool true)
(define-fun |top_h| ((state |top_s|)) Bool true)
(define-fun |top_t| ((state |top_s|) (next_state |top_s|)) Bool true) ; end of module top
(declare-fun s () |top_s|)
(assert (|top_u| s))
(check-sat)
