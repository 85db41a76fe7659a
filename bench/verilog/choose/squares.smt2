(set-logic QF_BV)
(define-sort |top_s| () (_ BitVec 31))
(define-fun |top_is| ((state |top_s|)) Bool (= ((_ extract 0 0) state) #b1))
(define-fun |top#0| ((state |top_s|)) (_ BitVec 10) ((_ extract 10 1) state)) ; \x
(define-fun |top_n x| ((state |top_s|)) (_ BitVec 10) (|top#0| state))
(define-fun |top#1| ((state |top_s|)) (_ BitVec 10) ((_ extract 20 11) state)) ; \y
(define-fun |top_n y| ((state |top_s|)) (_ BitVec 10) (|top#1| state))
(define-fun |top#2| ((state |top_s|)) (_ BitVec 10) ((_ extract 30 21) state)) ; \z
(define-fun |top_n z| ((state |top_s|)) (_ BitVec 10) (|top#2| state))
(define-fun |top#3| ((state |top_s|)) (_ BitVec 22) (bvmul (concat #b000000000000 (|top#0| state)) (concat #b000000000000 (|top#0| state)))) ; \xx
(define-fun |top#4| ((state |top_s|)) (_ BitVec 22) (bvmul (concat #b000000000000 (|top#1| state)) (concat #b000000000000 (|top#1| state)))) ; \yy
(define-fun |top#5| ((state |top_s|)) (_ BitVec 22) (bvadd (|top#3| state) (|top#4| state))) ; $add$choose/squares.v:6$16_Y
(define-fun |top#6| ((state |top_s|)) (_ BitVec 22) (bvmul (concat #b000000000000 (|top#2| state)) (concat #b000000000000 (|top#2| state)))) ; \zz
(define-fun |top#7| ((state |top_s|)) (_ BitVec 22) (bvadd (|top#5| state) (|top#6| state))) ; $add$choose/squares.v:6$17_Y
(define-fun |top#8| ((state |top_s|)) Bool (= (|top#7| state) #b0100101101011010000011)) ; $0$formal$choose/squares.v:5$1_CHECK[0:0]$10
(define-fun |top_u 0| ((state |top_s|)) Bool (or (|top#8| state) (not true))) ; $assume$choose/squares.v:5$22
(define-fun |top#9| ((state |top_s|)) Bool (bvult (|top#0| state) (|top#1| state))) ; $logic_and$choose/squares.v:7$21.a
(define-fun |top#10| ((state |top_s|)) Bool (bvult (|top#1| state) (|top#2| state))) ; $logic_and$choose/squares.v:7$21.b
(define-fun |top#11| ((state |top_s|)) (_ BitVec 1) (bvand (ite (|top#9| state) #b1 #b0) (ite (|top#10| state) #b1 #b0))) ; $0$formal$choose/squares.v:6$2_CHECK[0:0]$12
(define-fun |top_u 1| ((state |top_s|)) Bool (or (= ((_ extract 0 0) (|top#11| state)) #b1) (not true))) ; $assume$choose/squares.v:6$23
(define-fun |top#12| ((state |top_s|)) (_ BitVec 12) (bvadd (concat #b00 (|top#0| state)) (concat #b00 (|top#1| state)))) ; $add$choose/squares.v:4$7_Y
(define-fun |top#13| ((state |top_s|)) (_ BitVec 12) (bvadd (|top#12| state) (concat #b00 (|top#2| state)))) ; \sum
(define-fun |top_u 2| ((state |top_s|)) Bool (or (= ((_ extract 0 0) (|top#13| state)) #b1) (not true))) ; $assume$choose/squares.v:7$24
(define-fun |top_a| ((state |top_s|)) Bool true)
(define-fun |top_u| ((state |top_s|)) Bool (and
  (|top_u 0| state)
  (|top_u 1| state)
  (|top_u 2| state)
))
(define-fun |top_i| ((state |top_s|)) Bool true)
(define-fun |top_h| ((state |top_s|)) Bool true)
(define-fun |top_t| ((state |top_s|) (next_state |top_s|)) Bool true) ; end of module top
(declare-fun s () |top_s|)
(assert (|top_u| s))
(check-sat)
