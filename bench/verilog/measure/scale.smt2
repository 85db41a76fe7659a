(set-logic QF_BV)
(define-sort |top_s| () (_ BitVec 33))
(define-fun |top_is| ((state |top_s|)) Bool (= ((_ extract 0 0) state) #b1))
(define-fun |top#0| ((state |top_s|)) (_ BitVec 12) ((_ extract 12 1) state)) ; \gain
(define-fun |top_n gain| ((state |top_s|)) (_ BitVec 12) (|top#0| state))
(define-fun |top#1| ((state |top_s|)) (_ BitVec 16) ((_ extract 28 13) state)) ; \offset
(define-fun |top_n offset| ((state |top_s|)) (_ BitVec 16) (|top#1| state))
(define-fun |top#2| ((state |top_s|)) (_ BitVec 4) ((_ extract 32 29) state)) ; \shift
(define-fun |top_n shift| ((state |top_s|)) (_ BitVec 4) (|top#2| state))
(define-fun |top#3| ((state |top_s|)) (_ BitVec 27) (bvmul #b000000000000000000001111101 (concat #b000000000000000 (|top#0| state)))) ; $mul$measure/scale.v:5$12_Y [31:5]
(define-fun |top#4| ((state |top_s|)) (_ BitVec 32) (bvlshr (concat (|top#3| state) #b00000) (concat #b0000000000000000000000000000 (|top#2| state)))) ; $shr$measure/scale.v:5$13_Y
(define-fun |top#5| ((state |top_s|)) (_ BitVec 32) (bvadd (|top#4| state) (concat #b0000000000000000 (|top#1| state)))) ; \r2
(define-fun |top#6| ((state |top_s|)) Bool (bvult (|top#5| state) #b00000000000000001000111011111000)) ; $ge$measure/scale.v:11$33.less
(define-fun |top#7| ((state |top_s|)) (_ BitVec 1) (bvnot (ite (|top#6| state) #b1 #b0))) ; $ge$measure/scale.v:11$33_Y
(define-fun |top#8| ((state |top_s|)) Bool (bvult #b00000000000000001000111101011100 (|top#5| state))) ; $le$measure/scale.v:11$34.less
(define-fun |top#9| ((state |top_s|)) (_ BitVec 1) (bvnot (ite (|top#8| state) #b1 #b0))) ; $le$measure/scale.v:11$34_Y
(define-fun |top#10| ((state |top_s|)) (_ BitVec 1) (bvand (|top#7| state) (|top#9| state))) ; $0$formal$measure/scale.v:10$5_CHECK[0:0]$24
(define-fun |top_u 0| ((state |top_s|)) Bool (or (= ((_ extract 0 0) (|top#10| state)) #b1) (not true))) ; $assume$measure/scale.v:10$40
(define-fun |top#11| ((state |top_s|)) Bool (bvult #b0010 (|top#2| state))) ; $0$formal$measure/scale.v:6$1_CHECK[0:0]$16
(define-fun |top_u 1| ((state |top_s|)) Bool (or (|top#11| state) (not true))) ; $assume$measure/scale.v:6$36
(define-fun |top_u 2| ((state |top_s|)) Bool (or (= ((_ extract 0 0) (|top#0| state)) #b1) (not true))) ; $assume$measure/scale.v:7$37
(define-fun |top#12| ((state |top_s|)) (_ BitVec 29) (bvmul #b00000000000000000000001111101 (concat #b00000000000000000 (|top#0| state)))) ; $mul$measure/scale.v:3$6_Y [31:3]
(define-fun |top#13| ((state |top_s|)) (_ BitVec 32) (bvlshr (concat (|top#12| state) #b000) (concat #b0000000000000000000000000000 (|top#2| state)))) ; $shr$measure/scale.v:3$7_Y
(define-fun |top#14| ((state |top_s|)) (_ BitVec 32) (bvadd (|top#13| state) (concat #b0000000000000000 (|top#1| state)))) ; \r0
(define-fun |top#15| ((state |top_s|)) Bool (bvult (|top#14| state) #b00000000000000000010111011100000)) ; $ge$measure/scale.v:9$27.less
(define-fun |top#16| ((state |top_s|)) (_ BitVec 1) (bvnot (ite (|top#15| state) #b1 #b0))) ; $ge$measure/scale.v:9$27_Y
(define-fun |top#17| ((state |top_s|)) Bool (bvult #b00000000000000000010111101000100 (|top#14| state))) ; $le$measure/scale.v:9$28.less
(define-fun |top#18| ((state |top_s|)) (_ BitVec 1) (bvnot (ite (|top#17| state) #b1 #b0))) ; $le$measure/scale.v:9$28_Y
(define-fun |top#19| ((state |top_s|)) (_ BitVec 1) (bvand (|top#16| state) (|top#18| state))) ; $0$formal$measure/scale.v:8$3_CHECK[0:0]$20
(define-fun |top_u 3| ((state |top_s|)) Bool (or (= ((_ extract 0 0) (|top#19| state)) #b1) (not true))) ; $assume$measure/scale.v:8$38
(define-fun |top#20| ((state |top_s|)) (_ BitVec 30) (bvmul #b000000000000000000001001110001 (concat #b000000000000000000 (|top#0| state)))) ; $mul$measure/scale.v:4$9_Y [31:2]
(define-fun |top#21| ((state |top_s|)) (_ BitVec 32) (bvlshr (concat (|top#20| state) #b00) (concat #b0000000000000000000000000000 (|top#2| state)))) ; $shr$measure/scale.v:4$10_Y
(define-fun |top#22| ((state |top_s|)) (_ BitVec 32) (bvadd (|top#21| state) (concat #b0000000000000000 (|top#1| state)))) ; \r1
(define-fun |top#23| ((state |top_s|)) Bool (bvult (|top#22| state) #b00000000000000000101111011101100)) ; $ge$measure/scale.v:10$30.less
(define-fun |top#24| ((state |top_s|)) (_ BitVec 1) (bvnot (ite (|top#23| state) #b1 #b0))) ; $ge$measure/scale.v:10$30_Y
(define-fun |top#25| ((state |top_s|)) Bool (bvult #b00000000000000000101111101010000 (|top#22| state))) ; $le$measure/scale.v:10$31.less
(define-fun |top#26| ((state |top_s|)) (_ BitVec 1) (bvnot (ite (|top#25| state) #b1 #b0))) ; $le$measure/scale.v:10$31_Y
(define-fun |top#27| ((state |top_s|)) (_ BitVec 1) (bvand (|top#24| state) (|top#26| state))) ; $0$formal$measure/scale.v:9$4_CHECK[0:0]$22
(define-fun |top_u 4| ((state |top_s|)) Bool (or (= ((_ extract 0 0) (|top#27| state)) #b1) (not true))) ; $assume$measure/scale.v:9$39
(define-fun |top_a| ((state |top_s|)) Bool true)
(define-fun |top_u| ((state |top_s|)) Bool (and
  (|top_u 0| state)
  (|top_u 1| state)
  (|top_u 2| state)
  (|top_u 3| state)
  (|top_u 4| state)
))
(define-fun |top_i| ((state |top_s|)) Bool true)
(define-fun |top_h| ((state |top_s|)) Bool true)
(define-fun |top_t| ((state |top_s|) (next_state |top_s|)) Bool true) ; end of module top
(declare-fun s () |top_s|)
(assert (|top_u| s))
(check-sat)
