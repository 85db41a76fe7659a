(set-logic QF_BV)
(define-sort |top_s| () (_ BitVec 129))
(define-fun |top_is| ((state |top_s|)) Bool (= ((_ extract 0 0) state) #b1))
(define-fun |top#0| ((state |top_s|)) (_ BitVec 16) ((_ extract 16 1) state)) ; \w0
(define-fun |top_n w0| ((state |top_s|)) (_ BitVec 16) (|top#0| state))
(define-fun |top#1| ((state |top_s|)) (_ BitVec 16) ((_ extract 32 17) state)) ; \w1
(define-fun |top_n w1| ((state |top_s|)) (_ BitVec 16) (|top#1| state))
(define-fun |top#2| ((state |top_s|)) (_ BitVec 16) ((_ extract 48 33) state)) ; \w2
(define-fun |top_n w2| ((state |top_s|)) (_ BitVec 16) (|top#2| state))
(define-fun |top#3| ((state |top_s|)) (_ BitVec 16) ((_ extract 64 49) state)) ; \w3
(define-fun |top_n w3| ((state |top_s|)) (_ BitVec 16) (|top#3| state))
(define-fun |top#4| ((state |top_s|)) (_ BitVec 16) ((_ extract 80 65) state)) ; \w4
(define-fun |top_n w4| ((state |top_s|)) (_ BitVec 16) (|top#4| state))
(define-fun |top#5| ((state |top_s|)) (_ BitVec 16) ((_ extract 96 81) state)) ; \w5
(define-fun |top_n w5| ((state |top_s|)) (_ BitVec 16) (|top#5| state))
(define-fun |top#6| ((state |top_s|)) (_ BitVec 16) ((_ extract 112 97) state)) ; \w6
(define-fun |top_n w6| ((state |top_s|)) (_ BitVec 16) (|top#6| state))
(define-fun |top#7| ((state |top_s|)) (_ BitVec 16) ((_ extract 128 113) state)) ; \w7
(define-fun |top_n w7| ((state |top_s|)) (_ BitVec 16) (|top#7| state))
(define-fun |top#8| ((state |top_s|)) Bool (distinct (|top#5| state) #b0000000000000000)) ; $0$formal$choose/frame_internet.v:10$5_CHECK[0:0]$27
(define-fun |top_u 0| ((state |top_s|)) Bool (or (|top#8| state) (not true))) ; $assume$choose/frame_internet.v:10$49
(define-fun |top#9| ((state |top_s|)) Bool (= (|top#6| state) #b1100000010101000)) ; $0$formal$choose/frame_internet.v:11$6_CHECK[0:0]$29
(define-fun |top_u 1| ((state |top_s|)) Bool (or (|top#9| state) (not true))) ; $assume$choose/frame_internet.v:11$50
(define-fun |top#10| ((state |top_s|)) Bool (= ((_ extract 15 4) (|top#7| state)) #b000100100011)) ; $0$formal$choose/frame_internet.v:12$7_CHECK[0:0]$31
(define-fun |top_u 2| ((state |top_s|)) Bool (or (|top#10| state) (not true))) ; $assume$choose/frame_internet.v:12$51
(define-fun |top#11| ((state |top_s|)) (_ BitVec 20) (bvadd (concat #b0000 (|top#0| state)) (concat #b0000 (|top#1| state)))) ; $add$choose/frame_internet.v:3$9_Y
(define-fun |top#12| ((state |top_s|)) (_ BitVec 20) (bvadd (|top#11| state) (concat #b0000 (|top#2| state)))) ; $add$choose/frame_internet.v:3$10_Y
(define-fun |top#13| ((state |top_s|)) (_ BitVec 20) (bvadd (|top#12| state) (concat #b0000 (|top#3| state)))) ; $add$choose/frame_internet.v:3$11_Y
(define-fun |top#14| ((state |top_s|)) (_ BitVec 20) (bvadd (|top#13| state) (concat #b0000 (|top#4| state)))) ; $add$choose/frame_internet.v:3$12_Y
(define-fun |top#15| ((state |top_s|)) (_ BitVec 20) (bvadd (|top#14| state) (concat #b0000 (|top#5| state)))) ; $add$choose/frame_internet.v:3$13_Y
(define-fun |top#16| ((state |top_s|)) (_ BitVec 20) (bvadd (|top#15| state) (concat #b0000 (|top#6| state)))) ; $add$choose/frame_internet.v:3$14_Y
(define-fun |top#17| ((state |top_s|)) (_ BitVec 20) (bvadd (|top#16| state) (concat #b0000 (|top#7| state)))) ; \sum
(define-fun |top#18| ((state |top_s|)) (_ BitVec 20) (bvadd (concat #b0000 ((_ extract 15 0) (|top#17| state))) (concat #b0000000000000000 ((_ extract 19 16) (|top#17| state))))) ; \once
(define-fun |top#19| ((state |top_s|)) (_ BitVec 16) (bvadd ((_ extract 15 0) (|top#18| state)) (concat #b000000000000 ((_ extract 19 16) (|top#18| state))))) ; \folded
(define-fun |top#20| ((state |top_s|)) Bool (= (|top#19| state) #b1111111111111111)) ; $0$formal$choose/frame_internet.v:13$8_CHECK[0:0]$33
(define-fun |top_u 3| ((state |top_s|)) Bool (or (|top#20| state) (not true))) ; $assume$choose/frame_internet.v:13$52
(define-fun |top#21| ((state |top_s|)) Bool (= (|top#0| state) #b0100010100000000)) ; $0$formal$choose/frame_internet.v:6$1_CHECK[0:0]$19
(define-fun |top_u 4| ((state |top_s|)) Bool (or (|top#21| state) (not true))) ; $assume$choose/frame_internet.v:6$45
(define-fun |top#22| ((state |top_s|)) Bool (bvult (|top#1| state) #b0000000000101000)) ; $ge$choose/frame_internet.v:8$36.less
(define-fun |top#23| ((state |top_s|)) (_ BitVec 1) (bvnot (ite (|top#22| state) #b1 #b0))) ; $ge$choose/frame_internet.v:8$36_Y
(define-fun |top#24| ((state |top_s|)) Bool (bvult #b0000010111011100 (|top#1| state))) ; $le$choose/frame_internet.v:8$37.less
(define-fun |top#25| ((state |top_s|)) (_ BitVec 1) (bvnot (ite (|top#24| state) #b1 #b0))) ; $le$choose/frame_internet.v:8$37_Y
(define-fun |top#26| ((state |top_s|)) (_ BitVec 1) (bvand (|top#23| state) (|top#25| state))) ; $0$formal$choose/frame_internet.v:7$2_CHECK[0:0]$21
(define-fun |top_u 5| ((state |top_s|)) Bool (or (= ((_ extract 0 0) (|top#26| state)) #b1) (not true))) ; $assume$choose/frame_internet.v:7$46
(define-fun |top#27| ((state |top_s|)) Bool (= ((_ extract 15 8) (|top#4| state)) #b01000000)) ; $0$formal$choose/frame_internet.v:8$3_CHECK[0:0]$23
(define-fun |top_u 6| ((state |top_s|)) Bool (or (|top#27| state) (not true))) ; $assume$choose/frame_internet.v:8$47
(define-fun |top#28| ((state |top_s|)) Bool (= ((_ extract 7 0) (|top#4| state)) #b00010001)) ; $0$formal$choose/frame_internet.v:9$4_CHECK[0:0]$25
(define-fun |top_u 7| ((state |top_s|)) Bool (or (|top#28| state) (not true))) ; $assume$choose/frame_internet.v:9$48
(define-fun |top_a| ((state |top_s|)) Bool true)
(define-fun |top_u| ((state |top_s|)) Bool (and
  (|top_u 0| state)
  (|top_u 1| state)
  (|top_u 2| state)
  (|top_u 3| state)
  (|top_u 4| state)
  (|top_u 5| state)
  (|top_u 6| state)
  (|top_u 7| state)
))
(define-fun |top_i| ((state |top_s|)) Bool true)
(define-fun |top_h| ((state |top_s|)) Bool true)
(define-fun |top_t| ((state |top_s|) (next_state |top_s|)) Bool true) ; end of module top
(declare-fun s () |top_s|)
(assert (|top_u| s))
(check-sat)
