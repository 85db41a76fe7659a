(set-logic QF_BV)
(define-sort |top_s| () (_ BitVec 49))
(define-fun |top_is| ((state |top_s|)) Bool (= ((_ extract 0 0) state) #b1))
(define-fun |top#0| ((state |top_s|)) (_ BitVec 24) ((_ extract 24 1) state)) ; \offset
(define-fun |top_n offset| ((state |top_s|)) (_ BitVec 24) (|top#0| state))
(define-fun |top#1| ((state |top_s|)) (_ BitVec 24) ((_ extract 48 25) state)) ; \tuning
(define-fun |top_n tuning| ((state |top_s|)) (_ BitVec 24) (|top#1| state))
(define-fun |top#2| ((state |top_s|)) (_ BitVec 22) (bvmul #b0000000000000000000101 ((_ extract 21 0) (|top#1| state)))) ; $mul$measure/dds.v:6$11_Y [23:2]
(define-fun |top#3| ((state |top_s|)) (_ BitVec 22) (bvadd ((_ extract 23 2) (|top#0| state)) (|top#2| state))) ; \p20 [23:2]
(define-fun |top#4| ((state |top_s|)) Bool (= ((_ extract 21 14) (|top#3| state)) #b00111010)) ; $0$formal$measure/dds.v:10$4_CHECK[0:0]$20
(define-fun |top_u 0| ((state |top_s|)) Bool (or (|top#4| state) (not true))) ; $assume$measure/dds.v:10$34
(define-fun |top#5| ((state |top_s|)) Bool (bvult (|top#1| state) #b011000000000000000000000)) ; $logic_and$measure/dds.v:12$30.a
(define-fun |top#6| ((state |top_s|)) Bool (bvult #b000100000000000000000000 (|top#1| state))) ; $gt$measure/dds.v:12$29_Y
(define-fun |top#7| ((state |top_s|)) (_ BitVec 1) (bvand (ite (|top#5| state) #b1 #b0) (ite (|top#6| state) #b1 #b0))) ; $0$formal$measure/dds.v:11$5_CHECK[0:0]$22
(define-fun |top_u 1| ((state |top_s|)) Bool (or (= ((_ extract 0 0) (|top#7| state)) #b1) (not true))) ; $assume$measure/dds.v:11$35
(define-fun |top#8| ((state |top_s|)) (_ BitVec 24) (bvadd (|top#0| state) (|top#1| state))) ; \p1
(define-fun |top#9| ((state |top_s|)) Bool (= ((_ extract 23 22) (|top#8| state)) #b10)) ; $0$formal$measure/dds.v:7$1_CHECK[0:0]$14
(define-fun |top_u 2| ((state |top_s|)) Bool (or (|top#9| state) (not true))) ; $assume$measure/dds.v:7$31
(define-fun |top#10| ((state |top_s|)) (_ BitVec 24) (bvmul #b000000000000000000000011 (|top#1| state))) ; $mul$measure/dds.v:4$7_Y
(define-fun |top#11| ((state |top_s|)) (_ BitVec 24) (bvadd (|top#0| state) (|top#10| state))) ; \p3
(define-fun |top#12| ((state |top_s|)) Bool (= ((_ extract 23 22) (|top#11| state)) #b01)) ; $0$formal$measure/dds.v:8$2_CHECK[0:0]$16
(define-fun |top_u 3| ((state |top_s|)) Bool (or (|top#12| state) (not true))) ; $assume$measure/dds.v:8$32
(define-fun |top#13| ((state |top_s|)) (_ BitVec 24) (bvmul #b000000000000000000000111 (|top#1| state))) ; $mul$measure/dds.v:5$9_Y
(define-fun |top#14| ((state |top_s|)) (_ BitVec 24) (bvadd (|top#0| state) (|top#13| state))) ; \p7
(define-fun |top#15| ((state |top_s|)) Bool (= ((_ extract 23 20) (|top#14| state)) #b1011)) ; $0$formal$measure/dds.v:9$3_CHECK[0:0]$18
(define-fun |top_u 4| ((state |top_s|)) Bool (or (|top#15| state) (not true))) ; $assume$measure/dds.v:9$33
(define-fun |top_a| ((state |top_s|)) Bool true)
(define-fun |top_u| ((state |top_s|)) Bool (and
  (|top_u 0| state)
  (|top_u 1| state)
  (|top_u 2| state)
  (|top_u 3| state)
  (|top_u 4| state)
))
(define-fun |top_i| ((state |top_s|)) Bool true)
(define-fun |top_h| ((state |top_s|)) Bool true)
(define-fun |top_t| ((state |top_s|) (next_state |top_s|)) Bool true) ; end of module top
(declare-fun s () |top_s|)
(assert (|top_u| s))
(check-sat)
