(set-logic QF_BV)
(define-sort |top_s| () (_ BitVec 43))
(define-fun |top_is| ((state |top_s|)) Bool (= ((_ extract 0 0) state) #b1))
(define-fun |top#0| ((state |top_s|)) (_ BitVec 5) ((_ extract 5 1) state)) ; \by
(define-fun |top_n by| ((state |top_s|)) (_ BitVec 5) (|top#0| state))
(define-fun |top#1| ((state |top_s|)) (_ BitVec 5) ((_ extract 10 6) state)) ; \more
(define-fun |top_n more| ((state |top_s|)) (_ BitVec 5) (|top#1| state))
(define-fun |top#2| ((state |top_s|)) (_ BitVec 32) ((_ extract 42 11) state)) ; \word
(define-fun |top_n word| ((state |top_s|)) (_ BitVec 32) (|top#2| state))
(define-fun |top#3| ((state |top_s|)) Bool (bvult #b00011 (|top#0| state))) ; $gt$measure/barrel.v:6$25_Y
(define-fun |top#4| ((state |top_s|)) Bool (bvult (|top#0| state) (|top#1| state))) ; $gt$measure/barrel.v:6$26_Y
(define-fun |top#5| ((state |top_s|)) (_ BitVec 1) (bvand (ite (|top#3| state) #b1 #b0) (ite (|top#4| state) #b1 #b0))) ; $0$formal$measure/barrel.v:5$1_CHECK[0:0]$15
(define-fun |top_u 0| ((state |top_s|)) Bool (or (= ((_ extract 0 0) (|top#5| state)) #b1) (not true))) ; $assume$measure/barrel.v:5$35
(define-fun |top#6| ((state |top_s|)) (_ BitVec 32) (bvshl (|top#2| state) (concat #b000000000000000000000000000 (|top#0| state)))) ; $shl$measure/barrel.v:3$6_Y
(define-fun |top#7| ((state |top_s|)) (_ BitVec 6) (bvsub #b100000 (concat #b0 (|top#0| state)))) ; $sub$measure/barrel.v:3$7_Y
(define-fun |top#8| ((state |top_s|)) (_ BitVec 32) (bvlshr (|top#2| state) (concat #b00000000000000000000000000 (|top#7| state)))) ; $shr$measure/barrel.v:3$8_Y
(define-fun |top#9| ((state |top_s|)) (_ BitVec 32) (bvor (|top#6| state) (|top#8| state))) ; \once
(define-fun |top#10| ((state |top_s|)) Bool (= ((_ extract 15 8) (|top#9| state)) #b10100111)) ; $0$formal$measure/barrel.v:6$2_CHECK[0:0]$17
(define-fun |top_u 1| ((state |top_s|)) Bool (or (|top#10| state) (not true))) ; $assume$measure/barrel.v:6$36
(define-fun |top#11| ((state |top_s|)) (_ BitVec 32) (bvlshr (|top#9| state) (concat #b000000000000000000000000000 (|top#1| state)))) ; $shr$measure/barrel.v:4$10_Y
(define-fun |top#12| ((state |top_s|)) (_ BitVec 6) (bvsub #b100000 (concat #b0 (|top#1| state)))) ; $sub$measure/barrel.v:4$11_Y
(define-fun |top#13| ((state |top_s|)) (_ BitVec 32) (bvshl (|top#9| state) (concat #b00000000000000000000000000 (|top#12| state)))) ; $shl$measure/barrel.v:4$12_Y
(define-fun |top#14| ((state |top_s|)) (_ BitVec 32) (bvor (|top#11| state) (|top#13| state))) ; \again
(define-fun |top#15| ((state |top_s|)) Bool (= ((_ extract 31 24) (|top#14| state)) #b00111100)) ; $0$formal$measure/barrel.v:7$3_CHECK[0:0]$19
(define-fun |top_u 2| ((state |top_s|)) Bool (or (|top#15| state) (not true))) ; $assume$measure/barrel.v:7$37
(define-fun |top#16| ((state |top_s|)) Bool (= ((_ extract 7 0) (|top#2| state)) #b00010001)) ; $0$formal$measure/barrel.v:8$4_CHECK[0:0]$21
(define-fun |top_u 3| ((state |top_s|)) Bool (or (|top#16| state) (not true))) ; $assume$measure/barrel.v:8$38
(define-fun |top#17| ((state |top_s|)) (_ BitVec 32) (bvxor (|top#9| state) (|top#14| state))) ; $xor$measure/barrel.v:10$31_Y
(define-fun |top#18| ((state |top_s|)) (_ BitVec 32) (bvxor (|top#2| state) #b01011010010110100000111100001111)) ; $xor$measure/barrel.v:10$32_Y
(define-fun |top#19| ((state |top_s|)) Bool (= (|top#17| state) (|top#18| state))) ; $eq$measure/barrel.v:10$33_Y
(define-fun |top#20| ((state |top_s|)) (_ BitVec 1) (bvor (ite (|top#19| state) #b1 #b0) ((_ extract 0 0) (|top#9| state)))) ; $0$formal$measure/barrel.v:9$5_CHECK[0:0]$23
(define-fun |top_u 4| ((state |top_s|)) Bool (or (= ((_ extract 0 0) (|top#20| state)) #b1) (not true))) ; $assume$measure/barrel.v:9$39
(define-fun |top_a| ((state |top_s|)) Bool true)
(define-fun |top_u| ((state |top_s|)) Bool (and
  (|top_u 0| state)
  (|top_u 1| state)
  (|top_u 2| state)
  (|top_u 3| state)
  (|top_u 4| state)
))
(define-fun |top_i| ((state |top_s|)) Bool true)
(define-fun |top_h| ((state |top_s|)) Bool true)
(define-fun |top_t| ((state |top_s|) (next_state |top_s|)) Bool true) ; end of module top
(declare-fun s () |top_s|)
(assert (|top_u| s))
(check-sat)
