(set-logic QF_BV)
(define-sort |top_s| () (_ BitVec 33))
(define-fun |top_is| ((state |top_s|)) Bool (= ((_ extract 0 0) state) #b1))
(define-fun |top#0| ((state |top_s|)) (_ BitVec 32) ((_ extract 32 1) state)) ; \x
(define-fun |top_n x| ((state |top_s|)) (_ BitVec 32) (|top#0| state))
(define-fun |top#1| ((state |top_s|)) (_ BitVec 19) (bvxor ((_ extract 31 13) (|top#0| state)) ((_ extract 18 0) (|top#0| state)))) ; \a [31:13]
(define-fun |top#2| ((state |top_s|)) (_ BitVec 15) (bvxor (concat ((_ extract 1 0) (|top#1| state)) ((_ extract 12 0) (|top#0| state))) ((_ extract 18 4) (|top#1| state)))) ; { \b [14:5] \c [4:0] }
(define-fun |top#3| ((state |top_s|)) (_ BitVec 27) (bvxor (concat ((_ extract 18 2) (|top#1| state)) ((_ extract 14 5) (|top#2| state))) (concat ((_ extract 13 2) (|top#1| state)) (|top#2| state)))) ; \c [31:5]
(define-fun |top#4| ((state |top_s|)) (_ BitVec 32) (bvmul (concat (|top#3| state) ((_ extract 4 0) (|top#2| state))) #b10011110001101110111100110110001)) ; \h
(define-fun |top#5| ((state |top_s|)) Bool (= ((_ extract 31 16) (|top#4| state)) #b1011111011101111)) ; $0$formal$choose/hash_xorshift.v:7$1_CHECK[0:0]$11
(define-fun |top_u 0| ((state |top_s|)) Bool (or (|top#5| state) (not true))) ; $assume$choose/hash_xorshift.v:7$17
(define-fun |top#6| ((state |top_s|)) Bool (= ((_ extract 7 0) (|top#0| state)) #b01000001)) ; $0$formal$choose/hash_xorshift.v:8$2_CHECK[0:0]$13
(define-fun |top_u 1| ((state |top_s|)) Bool (or (|top#6| state) (not true))) ; $assume$choose/hash_xorshift.v:8$18
(define-fun |top_a| ((state |top_s|)) Bool true)
(define-fun |top_u| ((state |top_s|)) Bool (and
  (|top_u 0| state)
  (|top_u 1| state)
))
(define-fun |top_i| ((state |top_s|)) Bool true)
(define-fun |top_h| ((state |top_s|)) Bool true)
(define-fun |top_t| ((state |top_s|) (next_state |top_s|)) Bool true) ; end of module top
(declare-fun s () |top_s|)
(assert (|top_u| s))
(check-sat)
