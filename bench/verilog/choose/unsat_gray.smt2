(set-logic QF_BV)
(define-sort |top_s| () (_ BitVec 11))
(define-fun |top_is| ((state |top_s|)) Bool (= ((_ extract 0 0) state) #b1))
(define-fun |top#0| ((state |top_s|)) (_ BitVec 10) ((_ extract 10 1) state)) ; \x
(define-fun |top_n x| ((state |top_s|)) (_ BitVec 10) (|top#0| state))
(define-fun |top#1| ((state |top_s|)) Bool (distinct (|top#0| state) #b1111111111)) ; $0$formal$choose/unsat_gray.v:5$1_CHECK[0:0]$10
(define-fun |top_u 0| ((state |top_s|)) Bool (or (|top#1| state) (not true))) ; $assume$choose/unsat_gray.v:5$18
(define-fun |top#2| ((state |top_s|)) (_ BitVec 9) (bvxor ((_ extract 8 0) (|top#0| state)) ((_ extract 9 1) (|top#0| state)))) ; $auto$opt_expr.cc:205:group_cell_inputs$20
(define-fun |top#3| ((state |top_s|)) (_ BitVec 10) (bvadd (|top#0| state) #b0000000001)) ; \y
(define-fun |top#4| ((state |top_s|)) (_ BitVec 9) (bvxor ((_ extract 8 0) (|top#3| state)) ((_ extract 9 1) (|top#3| state)))) ; $auto$opt_expr.cc:205:group_cell_inputs$23
(define-fun |top#5| ((state |top_s|)) (_ BitVec 10) (bvxor (concat ((_ extract 9 9) (|top#0| state)) (|top#2| state)) (concat ((_ extract 9 9) (|top#3| state)) (|top#4| state)))) ; \d
(define-fun |top#6| ((state |top_s|)) (_ BitVec 10) (bvsub (|top#5| state) #b0000000001)) ; $sub$choose/unsat_gray.v:7$15_Y
(define-fun |top#7| ((state |top_s|)) (_ BitVec 10) (bvand (|top#5| state) (|top#6| state))) ; $and$choose/unsat_gray.v:7$16_Y
(define-fun |top#8| ((state |top_s|)) Bool (distinct (|top#7| state) #b0000000000)) ; $0$formal$choose/unsat_gray.v:6$2_CHECK[0:0]$12
(define-fun |top_u 1| ((state |top_s|)) Bool (or (|top#8| state) (not true))) ; $assume$choose/unsat_gray.v:6$19
(define-fun |top_a| ((state |top_s|)) Bool true)
(define-fun |top_u| ((state |top_s|)) Bool (and
  (|top_u 0| state)
  (|top_u 1| state)
))
(define-fun |top_i| ((state |top_s|)) Bool true)
(define-fun |top_h| ((state |top_s|)) Bool true)
(define-fun |top_t| ((state |top_s|) (next_state |top_s|)) Bool true) ; end of module top
(declare-fun s () |top_s|)
(assert (|top_u| s))
(check-sat)
