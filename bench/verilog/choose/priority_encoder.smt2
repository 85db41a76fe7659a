(set-logic QF_BV)
(define-sort |top_s| () (_ BitVec 37))
(define-fun |top_is| ((state |top_s|)) Bool (= ((_ extract 0 0) state) #b1))
(define-fun |top#0| ((state |top_s|)) (_ BitVec 16) ((_ extract 16 1) state)) ; \mask
(define-fun |top_n mask| ((state |top_s|)) (_ BitVec 16) (|top#0| state))
(define-fun |top#1| ((state |top_s|)) (_ BitVec 16) ((_ extract 32 17) state)) ; \request
(define-fun |top_n request| ((state |top_s|)) (_ BitVec 16) (|top#1| state))
(define-fun |top#2| ((state |top_s|)) (_ BitVec 4) ((_ extract 36 33) state)) ; \turn
(define-fun |top_n turn| ((state |top_s|)) (_ BitVec 4) (|top#2| state))
(define-fun |top#3| ((state |top_s|)) (_ BitVec 16) (bvnot (|top#0| state))) ; $not$choose/priority_encoder.v:3$8_Y
(define-fun |top#4| ((state |top_s|)) (_ BitVec 16) (bvand (|top#1| state) (|top#3| state))) ; \open
(define-fun |top#5| ((state |top_s|)) Bool (distinct (|top#4| state) #b0000000000000000)) ; $0$formal$choose/priority_encoder.v:12$3_CHECK[0:0]$12
(define-fun |top_u 0| ((state |top_s|)) Bool (or (|top#5| state) (not true))) ; $assume$choose/priority_encoder.v:12$44
(define-fun |top#6| ((state |top_s|)) (_ BitVec 32) (bvlshr (concat (|top#4| state) (|top#4| state)) (concat #b0000000000000000000000000000 (|top#2| state)))) ; \twice
(define-fun |top#7| ((state |top_s|)) (_ BitVec 2) (ite (= ((_ extract 14 14) (|top#6| state)) #b1) #b10 (concat ((_ extract 15 15) (|top#6| state)) ((_ extract 15 15) (|top#6| state))))) ; { $2\first[3:0] [3] $2\first[3:0] [0] }
(define-fun |top#8| ((state |top_s|)) (_ BitVec 3) (ite (= ((_ extract 13 13) (|top#6| state)) #b1) #b101 (concat ((_ extract 1 1) (|top#7| state)) (|top#7| state)))) ; { $3\first[3:0] [3] $3\first[3:0] [1:0] }
(define-fun |top#9| ((state |top_s|)) (_ BitVec 3) (ite (= ((_ extract 12 12) (|top#6| state)) #b1) #b100 (|top#8| state))) ; { $4\first[3:0] [3] $4\first[3:0] [1:0] }
(define-fun |top#10| ((state |top_s|)) (_ BitVec 4) (ite (= ((_ extract 11 11) (|top#6| state)) #b1) #b1011 (concat ((_ extract 2 2) (|top#9| state)) (|top#9| state)))) ; $5\first[3:0]
(define-fun |top#11| ((state |top_s|)) (_ BitVec 4) (ite (= ((_ extract 10 10) (|top#6| state)) #b1) #b1010 (|top#10| state))) ; $6\first[3:0]
(define-fun |top#12| ((state |top_s|)) (_ BitVec 4) (ite (= ((_ extract 9 9) (|top#6| state)) #b1) #b1001 (|top#11| state))) ; $7\first[3:0]
(define-fun |top#13| ((state |top_s|)) (_ BitVec 4) (ite (= ((_ extract 8 8) (|top#6| state)) #b1) #b1000 (|top#12| state))) ; $8\first[3:0]
(define-fun |top#14| ((state |top_s|)) (_ BitVec 4) (ite (= ((_ extract 7 7) (|top#6| state)) #b1) #b0111 (|top#13| state))) ; $9\first[3:0]
(define-fun |top#15| ((state |top_s|)) (_ BitVec 4) (ite (= ((_ extract 6 6) (|top#6| state)) #b1) #b0110 (|top#14| state))) ; $10\first[3:0]
(define-fun |top#16| ((state |top_s|)) (_ BitVec 4) (ite (= ((_ extract 5 5) (|top#6| state)) #b1) #b0101 (|top#15| state))) ; $11\first[3:0]
(define-fun |top#17| ((state |top_s|)) (_ BitVec 4) (ite (= ((_ extract 4 4) (|top#6| state)) #b1) #b0100 (|top#16| state))) ; $12\first[3:0]
(define-fun |top#18| ((state |top_s|)) (_ BitVec 4) (ite (= ((_ extract 3 3) (|top#6| state)) #b1) #b0011 (|top#17| state))) ; $13\first[3:0]
(define-fun |top#19| ((state |top_s|)) (_ BitVec 4) (ite (= ((_ extract 2 2) (|top#6| state)) #b1) #b0010 (|top#18| state))) ; $14\first[3:0]
(define-fun |top#20| ((state |top_s|)) (_ BitVec 4) (ite (= ((_ extract 1 1) (|top#6| state)) #b1) #b0001 (|top#19| state))) ; $15\first[3:0]
(define-fun |top#21| ((state |top_s|)) (_ BitVec 4) (ite (= ((_ extract 0 0) (|top#6| state)) #b1) #b0000 (|top#20| state))) ; \first
(define-fun |top#22| ((state |top_s|)) (_ BitVec 4) (bvadd (|top#21| state) (|top#2| state))) ; $add$choose/priority_encoder.v:14$39_Y
(define-fun |top#23| ((state |top_s|)) Bool (= (|top#22| state) #b0011)) ; $0$formal$choose/priority_encoder.v:13$4_CHECK[0:0]$14
(define-fun |top_u 1| ((state |top_s|)) Bool (or (|top#23| state) (not true))) ; $assume$choose/priority_encoder.v:13$45
(define-fun |top#24| ((state |top_s|)) Bool (bvult #b0110 (|top#21| state))) ; $0$formal$choose/priority_encoder.v:14$5_CHECK[0:0]$16
(define-fun |top_u 2| ((state |top_s|)) Bool (or (|top#24| state) (not true))) ; $assume$choose/priority_encoder.v:14$46
(define-fun |top#25| ((state |top_s|)) (_ BitVec 5) (bvadd (concat #b0000 ((_ extract 0 0) (|top#4| state))) (concat #b0000 ((_ extract 1 1) (|top#4| state))))) ; $add$choose/priority_encoder.v:12$23_Y
(define-fun |top#26| ((state |top_s|)) (_ BitVec 5) (bvadd (|top#25| state) (concat #b0000 ((_ extract 2 2) (|top#4| state))))) ; $add$choose/priority_encoder.v:12$24_Y
(define-fun |top#27| ((state |top_s|)) (_ BitVec 5) (bvadd (|top#26| state) (concat #b0000 ((_ extract 3 3) (|top#4| state))))) ; $add$choose/priority_encoder.v:12$25_Y
(define-fun |top#28| ((state |top_s|)) (_ BitVec 5) (bvadd (|top#27| state) (concat #b0000 ((_ extract 4 4) (|top#4| state))))) ; $add$choose/priority_encoder.v:12$26_Y
(define-fun |top#29| ((state |top_s|)) (_ BitVec 5) (bvadd (|top#28| state) (concat #b0000 ((_ extract 5 5) (|top#4| state))))) ; $add$choose/priority_encoder.v:12$27_Y
(define-fun |top#30| ((state |top_s|)) (_ BitVec 5) (bvadd (|top#29| state) (concat #b0000 ((_ extract 6 6) (|top#4| state))))) ; $add$choose/priority_encoder.v:12$28_Y
(define-fun |top#31| ((state |top_s|)) (_ BitVec 5) (bvadd (|top#30| state) (concat #b0000 ((_ extract 7 7) (|top#4| state))))) ; $add$choose/priority_encoder.v:12$29_Y
(define-fun |top#32| ((state |top_s|)) (_ BitVec 5) (bvadd (|top#31| state) (concat #b0000 ((_ extract 8 8) (|top#4| state))))) ; $add$choose/priority_encoder.v:12$30_Y
(define-fun |top#33| ((state |top_s|)) (_ BitVec 5) (bvadd (|top#32| state) (concat #b0000 ((_ extract 9 9) (|top#4| state))))) ; $add$choose/priority_encoder.v:12$31_Y
(define-fun |top#34| ((state |top_s|)) (_ BitVec 5) (bvadd (|top#33| state) (concat #b0000 ((_ extract 10 10) (|top#4| state))))) ; $add$choose/priority_encoder.v:12$32_Y
(define-fun |top#35| ((state |top_s|)) (_ BitVec 5) (bvadd (|top#34| state) (concat #b0000 ((_ extract 11 11) (|top#4| state))))) ; $add$choose/priority_encoder.v:12$33_Y
(define-fun |top#36| ((state |top_s|)) (_ BitVec 5) (bvadd (|top#35| state) (concat #b0000 ((_ extract 12 12) (|top#4| state))))) ; $add$choose/priority_encoder.v:12$34_Y
(define-fun |top#37| ((state |top_s|)) (_ BitVec 5) (bvadd (|top#36| state) (concat #b0000 ((_ extract 13 13) (|top#4| state))))) ; $add$choose/priority_encoder.v:12$35_Y
(define-fun |top#38| ((state |top_s|)) (_ BitVec 5) (bvadd (|top#37| state) (concat #b0000 ((_ extract 14 14) (|top#4| state))))) ; $add$choose/priority_encoder.v:12$36_Y
(define-fun |top#39| ((state |top_s|)) (_ BitVec 5) (bvadd (|top#38| state) (concat #b0000 ((_ extract 15 15) (|top#4| state))))) ; \count
(define-fun |top#40| ((state |top_s|)) Bool (= (|top#39| state) #b00101)) ; $0$formal$choose/priority_encoder.v:15$6_CHECK[0:0]$18
(define-fun |top_u 3| ((state |top_s|)) Bool (or (|top#40| state) (not true))) ; $assume$choose/priority_encoder.v:15$47
(define-fun |top#41| ((state |top_s|)) Bool (= ((_ extract 3 0) (|top#1| state)) #b1111)) ; $0$formal$choose/priority_encoder.v:16$7_CHECK[0:0]$20
(define-fun |top_u 4| ((state |top_s|)) Bool (or (|top#41| state) (not true))) ; $assume$choose/priority_encoder.v:16$48
(define-fun |top_a| ((state |top_s|)) Bool true)
(define-fun |top_u| ((state |top_s|)) Bool (and
  (|top_u 0| state)
  (|top_u 1| state)
  (|top_u 2| state)
  (|top_u 3| state)
  (|top_u 4| state)
))
(define-fun |top_i| ((state |top_s|)) Bool true)
(define-fun |top_h| ((state |top_s|)) Bool true)
(define-fun |top_t| ((state |top_s|) (next_state |top_s|)) Bool true) ; end of module top
(declare-fun s () |top_s|)
(assert (|top_u| s))
(check-sat)
